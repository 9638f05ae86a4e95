#!/usr/bin/env python3
"""Measures two commands on the same texts, one after the other in turns.

Either may be a command of several words in quotes, in which `@` stands for the words that are measured: 'PROGRAM @ --threads 1'.
It wants `/usr/bin/time` (GNU). Nothing else should run meanwhile.
"""
import pathlib
import shlex
import subprocess
import sys
import time
from typing import List, NamedTuple

TURNS = 7


class Cost(NamedTuple):
    """What a run took."""

    seconds: float
    kilobytes: int


def command(given: str, asked: List[str]) -> List[str]:
    """The words that run what was given on what is asked."""
    words = shlex.split(given)
    at = words.index("@") if "@" in words else len(words)
    return words[:at] + asked + words[at + 1 :]


def measure(words: List[str], folder: str) -> Cost:
    """What one run takes. A refused text is no failure here; any other is."""
    note = f"{folder}/memory"
    start = time.perf_counter()
    done = subprocess.run(["/usr/bin/time", "-q", "-f", "%M", "-o", note, *words], stdout=subprocess.PIPE)
    seconds = time.perf_counter() - start
    if done.returncode not in (0, 3):
        sys.exit(f"{words[0]} ended with {done.returncode}: {done.stdout.decode()}")
    return Cost(seconds, int(pathlib.Path(note).read_text()))


def best(costs: List[Cost]) -> Cost:
    """The best time and the largest memory."""
    return Cost(min(cost.seconds for cost in costs), max(cost.kilobytes for cost in costs))


def compare(given: List[str], asked: List[str], folder: str) -> List[Cost]:
    """The costs of both commands on what is asked."""
    costs: List[List[Cost]] = [[], []]
    for _ in range(TURNS):
        for place in (0, 1):
            costs[place].append(measure(command(given[place], asked), folder))
    return [best(each) for each in costs]


def row(name: str, costs: List[Cost]) -> str:
    """A line of the table."""
    cells = [f"{cost.seconds:.3f} | {cost.kilobytes:,}" for cost in costs]
    ratios = [f"{costs[0].seconds / costs[1].seconds:.2f}", f"{costs[0].kilobytes / costs[1].kilobytes:.2f}"]
    return f"| {name} | " + " | ".join(cells + ratios) + " |"


def table_head(first: str) -> str:
    """The first two lines of the table."""
    return f"| {first} | Seconds | KB | Other: seconds | Other: KB | Times | Memory |\n|---|---|---|---|---|---|---|"
