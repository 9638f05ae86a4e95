#!/usr/bin/env python3
"""Compares how fast two programs rehearse sessions, and how much memory they take.

`rehearsing.py PROGRAM OTHER [--extended]` runs `rehearse FILE BITS` of both, in sections of the default length and over files of
the one kind or the other, as `costs.py` says, and prints the best of seven times (elapsed seconds of the whole run) and the
largest resident memory of each. The circuits are chains: of AND gates, each of the wire before and input 0, half and all of
131,000, and in kind extended a million; and of INV gates, half a million and a million. Others are random ones of `circuits.py`, of
131,000 gates, and in kind extended a million.
"""
import pathlib
import sys
import tempfile
from typing import Iterator, NamedTuple

from circuits import INPUTS, MIXED, chain, random_circuit
from costs import compare, row, table_head

SEED = 1


class Rehearsed(NamedTuple):
    """A circuit of this name, and its input bits."""

    name: str
    text: str
    bits: str


def rehearsed(extended: bool) -> Iterator[Rehearsed]:
    """What is rehearsed over files of one kind."""
    chains = [(65_500, "AND"), (131_000, "AND"), (500_000, "INV"), (1_000_000, "INV")]
    drawn = [131_000]
    if extended:
        chains.append((1_000_000, "AND"))
        drawn.append(1_000_000)
    for gates, name in chains:
        yield Rehearsed(f"{gates:,} {name}", chain(gates, [name]), "11")
    for gates in drawn:
        yield Rehearsed(f"{gates:,} generated", random_circuit(gates, SEED, MIXED), "01" * (INPUTS // 2))


def main() -> None:
    given, kind = sys.argv[1:3], sys.argv[3:]
    if len(given) != 2 or kind not in ([], ["--extended"]):
        sys.exit("rehearsing.py PROGRAM OTHER [--extended]")
    print(table_head("Circuit"))
    with tempfile.TemporaryDirectory() as folder:
        file = f"{folder}/text"
        for name, text, bits in rehearsed(bool(kind)):
            pathlib.Path(file).write_text(text)
            print(row(name, compare(given, ["rehearse", file, bits, *kind], folder)), flush=True)


if __name__ == "__main__":
    main()
