#!/usr/bin/env python3
"""Makes the circuits that are measured, and prints one.

`circuits.py random GATES SEED` prints a circuit of 64 input wires and so many gates XOR, AND, INV and EQW, three, three, one and one
in eight. Gate i sets wire 64 + i, and reads wires that are drawn from those before it. The last 32 wires, or as many as there are
gates, are the one output value. All draws follow from the seed.

`circuits.py chain GATES` prints a circuit of two inputs and so many gates, AND and INV in turn: each reads the wire before it, and
each AND also input 0.
"""
import random
import sys
from typing import Iterator, List

INPUTS = 64
MAX_OUTPUTS = 32
MIXED = ["XOR", "XOR", "XOR", "AND", "AND", "AND", "INV", "EQW"]


def gate_rows(gates: int, seed: int, names: List[str]) -> Iterator[str]:
    """The lines of the gates. Each takes three draws of 64 bits: of its name, and of the two wires that it may read."""
    draw = random.Random(seed).getrandbits
    for out in range(INPUTS, INPUTS + gates):
        kind, first, second = draw(64), draw(64), draw(64)
        name = names[kind * len(names) >> 64]
        a, b = (first >> 32) % out, (second >> 32) % out
        yield f"2 1 {a} {b} {out} {name}" if name in ("XOR", "AND") else f"1 1 {a} {out} {name}"


def random_circuit(gates: int, seed: int, names: List[str]) -> str:
    """The text of a circuit of so many gates, whose names are drawn from these."""
    head = [f"{gates} {INPUTS + gates}", f"1 {INPUTS}", f"1 {min(gates, MAX_OUTPUTS)}"]
    return "\n".join([*head, *gate_rows(gates, seed, names)]) + "\n"


def chain(gates: int, names: List[str]) -> str:
    """A circuit of two inputs and so many gates, which have these names in turn and read the wire before them."""
    rows = [f"{gates} {gates + 2}", "1 2", "1 1", ""]
    for i in range(gates):
        name = names[i % len(names)]
        reads = "2 1 0" if name == "AND" else "1 1"
        rows.append(f"{reads} {i + 1} {i + 2} {name}")
    return "\n".join(rows) + "\n"


def main() -> None:
    kind, *numbers = sys.argv[1:] or [""]
    if kind not in ("random", "chain") or len(numbers) != (2 if kind == "random" else 1):
        sys.exit("circuits.py random GATES SEED, or circuits.py chain GATES")
    if not all(word.isdecimal() for word in numbers):
        sys.exit("GATES and SEED are numbers")
    given = [int(word) for word in numbers]
    sys.stdout.write(random_circuit(*given, MIXED) if kind == "random" else chain(*given, ["AND", "INV"]))


if __name__ == "__main__":
    main()
