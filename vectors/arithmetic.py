#!/usr/bin/env python3
"""Reads and evaluates arithmetic circuits and files of elements, apart from the program that is tested against this.

It is written from these rules alone; tokens and numbers are those of `bristol.py`:

  - A text is the number of gates, of wires, of inputs and of outputs, and then each gate, its name first: ADD and MUL of two
    wires and CONST of a value, which set a wire, and ASSERT of one wire, which sets none.
  - Each token is judged where it stands, one after another: what it has to be, its limit, its range, and whether its wire is set.
    Then comes a token behind the last gate, and last an output wire that is not set.
  - Values are integers modulo 2^61 - 1. A file of elements is a text of such numbers.

`arithmetic.py FILE VALUES` prints the outputs, or the first fault, or the number of the first assertion that is not met.
"""
import sys
from typing import List, NamedTuple, Tuple, Union

import bristol
from bristol import MOST_GATES, MOST_WIRES, Fault, Refused
from common import P

# How many wires each gate reads, and whether it sets one.
GATES = {b"ADD": (2, True), b"MUL": (2, True), b"CONST": (0, True), b"ASSERT": (1, False)}


class Gate(NamedTuple):
    """A gate: the wires that it reads, or its value, and the wire that it sets."""

    name: str
    reads: Tuple[int, ...]
    value: int
    output: int


class Circuit(NamedTuple):
    """A circuit; its input wires are the first ones, its output wires the last ones."""

    wires: int
    inputs: int
    outputs: int
    gates: List[Gate]

    @property
    def products(self) -> int:
        return sum(gate.name == "MUL" for gate in self.gates)


class Tokens(bristol.Tokens):
    """Tokens whose numbers are taken whole."""

    def take_number(self) -> int:
        token = self.take()
        if not token.isdigit():
            raise Refused("BadNumber", self.place - 1)
        digits = token.lstrip(b"0")
        return 2**64 if len(digits) > 20 else int(digits or b"0")

    def take_size(self, wires: int) -> int:
        """A number of inputs or of outputs."""
        size = self.take_number()
        if size > wires:
            raise Refused("WireRange", self.place - 1)
        return size

    def take_wire(self, is_set: bytearray, wanted: bool) -> int:
        """A wire that must be set by now, or must not be."""
        wire = self.take_number()
        if wire >= len(is_set):
            raise Refused("WireRange", self.place - 1)
        if is_set[wire] != wanted:
            raise Refused("ReadBeforeSet" if wanted else "SetTwice", self.place - 1)
        return wire


def take_gate(tokens: Tokens, is_set: bytearray) -> Gate:
    """One gate, which sets its wire in `is_set`."""
    name = tokens.take()
    if name not in GATES:
        raise Refused("BadGate", tokens.place - 1)
    count, sets = GATES[name]
    reads = tuple(tokens.take_wire(is_set, True) for _ in range(count))
    value = 0
    if name == b"CONST":
        value = tokens.take_number()
        if value >= P:
            raise Refused("BadConstant", tokens.place - 1)
    output = tokens.take_wire(is_set, False) if sets else 0
    if sets:
        is_set[output] = 1
    return Gate(name.decode(), reads, value, output)


def take_circuit(tokens: Tokens) -> Circuit:
    """The circuit that all tokens say."""
    gate_count = tokens.take_count(MOST_GATES)
    wires = tokens.take_count(MOST_WIRES)
    inputs, outputs = tokens.take_size(wires), tokens.take_size(wires)
    is_set = bytearray(b"\1" * inputs + bytes(wires - inputs))
    gates = [take_gate(tokens, is_set) for _ in range(gate_count)]
    tokens.end()
    unset = is_set.find(0, wires - outputs)
    if unset != -1:
        raise Refused("OutputUnset", unset)
    return Circuit(wires, inputs, outputs, gates)


def read(text: bytes) -> Union[Circuit, Fault]:
    """The circuit of a text, or the text's first fault."""
    try:
        return take_circuit(Tokens(text))
    except Refused as refused:
        return refused.fault


def values(circuit: Circuit, inputs: List[int]) -> List[int]:
    """The value of each wire at these inputs, whether assertions are met or not."""
    assert len(inputs) == circuit.inputs
    found = inputs + [0] * (circuit.wires - len(inputs))
    for gate in circuit.gates:
        if gate.name == "CONST":
            found[gate.output] = gate.value
        elif gate.name != "ASSERT":
            a, b = (found[wire] for wire in gate.reads)
            found[gate.output] = (a + b if gate.name == "ADD" else a * b) % P
    return found


def evaluate(circuit: Circuit, inputs: List[int]) -> Union[List[int], int]:
    """The outputs at these inputs, or the number of the first assertion that is not met."""
    found = values(circuit, inputs)
    asserted = [found[gate.reads[0]] for gate in circuit.gates if gate.name == "ASSERT"]
    unmet = next((number for number, value in enumerate(asserted) if value), None)
    return found[circuit.wires - circuit.outputs :] if unmet is None else unmet


def elements(text: bytes) -> Union[List[int], int]:
    """The elements that a text says, or the number of the first token that is none."""
    tokens = bristol.TOKEN.findall(text)
    bad = next((number for number, token in enumerate(tokens) if not token.isdigit() or int(token) >= P), None)
    return [int(token) for token in tokens] if bad is None else bad


def word_of(values: List[int]) -> str:
    """A list of elements as it is printed."""
    return " ".join(map(str, values)) or "none"


def main() -> int:
    if len(sys.argv) != 3:
        sys.exit("arithmetic.py FILE VALUES")
    texts = [open(name, "rb").read() for name in sys.argv[1:]]
    circuit, values = read(texts[0]), elements(texts[1])
    if isinstance(circuit, Fault) or isinstance(values, int) or len(values) != circuit.inputs:
        print(circuit if isinstance(circuit, Fault) else values)
        return 1
    found = evaluate(circuit, values)
    print(f"unsatisfied {circuit.outputs + found}" if isinstance(found, int) else word_of(found))
    return 0


if __name__ == "__main__":
    sys.exit(main())
