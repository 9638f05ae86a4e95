#!/usr/bin/env python3
"""Writes the arithmetic circuit of `examples/balances.txt`, and values for it to `examples/balances.values`.

Its inputs are balances, and then the 32 bits of each, the lowest first. Assertions say that every bit is 0 or 1, and that
each balance is the number of its bits, so that it is below 2^32. The one output is the sum of the balances: as they are few,
it is no other than the sum of the integers. `balances.py --write` writes both; without it the script compares them with what stands there, and
ends with 1 where they differ.
"""
import pathlib
import sys
from typing import Dict, List

import arithmetic
from common import P

EXAMPLES = pathlib.Path(__file__).resolve().parent.parent / "examples"
BITS = 32
BALANCES = [1200, 4_294_967_295, 0, 35_000]


class Lines:
    """Gates, a line each; every one that sets a wire sets the next one."""

    def __init__(self, inputs: int):
        self.inputs = inputs
        self.wires = inputs
        self.lines: List[str] = []

    def set(self, name: str, *operands: int) -> int:
        """A gate that sets the next wire."""
        self.lines.append(" ".join([name, *map(str, operands), str(self.wires)]))
        self.wires += 1
        return self.wires - 1

    def assert_zero(self, wire: int) -> None:
        self.lines.append(f"ASSERT {wire}")

    def text(self, outputs: int) -> bytes:
        first = f"{len(self.lines)} {self.wires} {self.inputs} {outputs}"
        return "".join(f"{line}\n" for line in [first, *self.lines]).encode()


def circuit_text(count: int) -> bytes:
    """The circuit of so many balances."""
    lines = Lines(count * (1 + BITS))
    less_one = lines.set("CONST", P - 1)
    for number in range(count):
        bits = [count + number * BITS + place for place in range(BITS)]
        for bit in bits:
            lines.assert_zero(lines.set("MUL", bit, lines.set("ADD", bit, less_one)))
        value = bits[-1]
        for bit in reversed(bits[:-1]):
            value = lines.set("ADD", lines.set("ADD", value, value), bit)
        lines.assert_zero(lines.set("ADD", number, lines.set("MUL", value, less_one)))
    total = 0
    for number in range(1, count):
        total = lines.set("ADD", total, number)
    return lines.text(1)


def values_text(balances: List[int]) -> bytes:
    """The inputs of the circuit: a line for all balances, and one for the bits of each."""
    rows = [balances] + [[balance >> place & 1 for place in range(BITS)] for balance in balances]
    return "".join(f"{' '.join(map(str, row))}\n" for row in rows).encode()


def files() -> Dict[str, bytes]:
    text, values = circuit_text(len(BALANCES)), values_text(BALANCES)
    circuit, given = arithmetic.read(text), arithmetic.elements(values)
    assert isinstance(circuit, arithmetic.Circuit) and isinstance(given, list)
    assert arithmetic.evaluate(circuit, given) == [sum(BALANCES)]
    return {"balances.txt": text, "balances.values": values}


def main() -> int:
    made = files()
    if sys.argv[1:] == ["--write"]:
        for name, data in made.items():
            (EXAMPLES / name).write_bytes(data)
    elif sys.argv[1:]:
        sys.exit("balances.py [--write]")
    wrong = [name for name, data in made.items() if not (EXAMPLES / name).exists() or (EXAMPLES / name).read_bytes() != data]
    for name in wrong:
        print(f"examples/{name} is not as it must be")
    return 1 if wrong else 0


if __name__ == "__main__":
    sys.exit(main())
