#!/usr/bin/env python3
"""Generated circuits, computed apart from the program, as `docs/FORMATS.md` has them.

`python3 vectors/generated.py GATES NUMBER` prints the input bits and the outputs of the circuit of so many gates that is drawn from a
number, and then its text.
"""
import sys
from typing import Iterator, List, NamedTuple, Tuple

import bristol

INPUTS = 64
MOST_OUTPUTS = 32
MOST_GENERATED = 2**20 - 64


class Generated(NamedTuple):
    """A circuit's text, input bits for it, and what it gives at them."""

    text: bytes
    bits: List[int]
    outputs: List[int]


def draws(number: int) -> Iterator[int]:
    """The states of the generator from a number on."""
    while True:
        number = (number * 6364136223846793005 + 1442695040888963407) % 2**64
        yield number


def gate_of(drawn: Tuple[int, int, int], out: int) -> str:
    """The line of the gate that sets a wire, from three draws."""
    kind = drawn[0] >> 61
    a, b = ((each >> 32) % out for each in drawn[1:])
    if kind < 6:
        return f"2 1 {a} {b} {out} {'XOR' if kind < 3 else 'AND'}"
    return f"1 1 {a} {out} {'INV' if kind == 6 else 'EQW'}"


def generate(gates: int, number: int) -> Generated:
    drawn = draws(number)
    bits = [next(drawn) >> 63 for _ in range(INPUTS)]
    lines = [f"{gates} {INPUTS + gates}", f"1 {INPUTS}", f"1 {min(gates, MOST_OUTPUTS)}"]
    lines += [gate_of((next(drawn), next(drawn), next(drawn)), INPUTS + gate) for gate in range(gates)]
    text = "".join(f"{line}\n" for line in lines).encode()
    circuit = bristol.read(text)
    assert isinstance(circuit, bristol.Circuit)
    return Generated(text, bits, bristol.evaluate(circuit, bits))


def main() -> int:
    made = generate(int(sys.argv[1]), int(sys.argv[2]))
    print("bits", bristol.word_of(made.bits))
    print("outputs", bristol.word_of(made.outputs))
    print(made.text.decode(), end="")
    return 0


if __name__ == "__main__":
    sys.exit(main())
