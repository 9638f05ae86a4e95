#!/usr/bin/env python3
"""Reads and evaluates circuits in Bristol Fashion, apart from the program that is tested against this.

It is written from the format alone (Smart and others, "Bristol Fashion" MPC circuits) and these rules for its texts:

  - A text is a stream of tokens between spaces, tabs, carriage returns and line feeds; line ends say nothing, and every
    other byte belongs to a token. Tokens are counted from 0.
  - They are: the number of gates; the number of wires; the number of input values, and of how many wires each is; the
    same of output values; and for each gate its number of inputs, its number of outputs, the input wires, the output
    wire and its name.
  - A number is one or more digits of ASCII, of any length; zeros that lead it do not count.
  - The first wires are the inputs, the last ones the outputs; a wire may be both.
  - Gates are XOR and AND of two wires, INV (not) and EQW (copy) of one wire, and EQ of a constant, 0 or 1. A gate reads
    wires that are set: the inputs, and what gates before it set. No wire is set twice; each output is set in the end.

What is no circuit is refused with its first fault. Tokens come in order, but of a gate first all its tokens are looked
at by themselves, then the wires that it reads, in order, then the wire that it sets. Last come a token behind the last
gate, and an output that is not set.

`bristol.py eval FILE BITS` prints the outputs, or why there are none, and ends with the status, all as `zk eval` does.
BITS is a word of 0 and 1, or `none` for no bits.
"""
import re
import sys
from typing import List, NamedTuple, Tuple, Union

MOST_GATES = 2**24
MOST_WIRES = 2**24
MOST_VALUES = 1024
MOST_BYTES = 2**30

FAULTS = [
    "ShortText",  # the text ends where this token is needed
    "BadNumber",  # a number is needed, and this token is none
    "TooLarge",  # a number of gates, wires or values above its limit
    "BadGate",  # not 1 or 2 inputs, not 1 output, or no name of a gate with so many inputs
    "BadConstant",  # EQ reads something else than 0 and 1
    "WireRange",  # a wire that is not there, or the size of a value with which a list's sizes pass the number of wires
    "ReadBeforeSet",  # a gate reads a wire that is not set
    "SetTwice",  # a gate sets a wire that is set already
    "OutputUnset",  # an output is not set; the place is that of the lowest such wire, and no token's
    "ExtraText",  # a token stands behind the last gate
]
NUMBERS = {name: number for number, name in enumerate(FAULTS, 1)}

# The names of gates with so many inputs.
NAMES = {1: (b"INV", b"EQ", b"EQW"), 2: (b"XOR", b"AND")}

# More than any limit: what every number stands for that has more digits than this. No rule tells such numbers apart.
HUGE = 10**12

TOKEN = re.compile(rb"[^ \t\r\n]+")

USAGE = "usage: zk deal, eval, rehearse, prove, serve, serve-many, migrate, status, rehearse-poly, prove-poly, serve-poly, rehearse-arith, prove-arith, serve-arith, audit-arith, node, broker, serve-node or audit"


class Fault(NamedTuple):
    """The first fault of a text, and the token or the wire that it is about."""

    name: str
    place: int

    @property
    def number(self) -> int:
        return NUMBERS[self.name]


class Gate(NamedTuple):
    """A gate; EQ's one input is its constant."""

    name: str
    inputs: Tuple[int, ...]
    output: int


class Circuit(NamedTuple):
    """A circuit; its input wires are the first ones, its output wires the last ones."""

    wires: int
    input_sizes: List[int]
    output_sizes: List[int]
    gates: List[Gate]

    @property
    def inputs(self) -> int:
        return sum(self.input_sizes)

    @property
    def outputs(self) -> int:
        return sum(self.output_sizes)


class Refused(Exception):
    """A text is refused with this fault."""

    def __init__(self, name: str, place: int):
        super().__init__(name, place)
        self.fault = Fault(name, place)


class Tokens:
    """The tokens of a text, one after another; `place` is the number of the next one."""

    def __init__(self, text: bytes):
        self.found = TOKEN.finditer(text)
        self.place = 0

    def take(self) -> bytes:
        """The next token."""
        token = next(self.found, None)
        if token is None:
            raise Refused("ShortText", self.place)
        self.place += 1
        return token.group()

    def take_number(self) -> int:
        """The next token, as a number."""
        token = self.take()
        if not token.isdigit():  # of bytes, these are the digits of ASCII alone
            raise Refused("BadNumber", self.place - 1)
        digits = token.lstrip(b"0")
        return HUGE if len(digits) > 12 else int(digits or b"0")

    def take_count(self, most: int) -> int:
        """The next token, as a number that has a limit."""
        number = self.take_number()
        if number > most:
            raise Refused("TooLarge", self.place - 1)
        return number

    def take_sizes(self, wires: int) -> List[int]:
        """A number of values, and of how many wires each is."""
        sizes, total = [], 0
        for _ in range(self.take_count(MOST_VALUES)):
            size = self.take_number()
            total += size
            if total > wires:
                raise Refused("WireRange", self.place - 1)
            sizes.append(size)
        return sizes

    def end(self) -> None:
        """There is no token left."""
        if next(self.found, None) is not None:
            raise Refused("ExtraText", self.place)


def take_gate(tokens: Tokens, is_set: bytearray) -> Gate:
    """One gate, which sets its output wire in `is_set`."""
    start, wires = tokens.place, len(is_set)
    count = tokens.take_number()
    if count not in NAMES:
        raise Refused("BadGate", start)
    if tokens.take_number() != 1:
        raise Refused("BadGate", start + 1)
    reads = [tokens.take_number() for _ in range(count)]
    output = tokens.take_number()
    name = tokens.take()
    if name not in NAMES[count]:
        raise Refused("BadGate", tokens.place - 1)
    for place, read in enumerate(reads, start + 2):
        if name == b"EQ":
            if read > 1:
                raise Refused("BadConstant", place)
        elif read >= wires:
            raise Refused("WireRange", place)
        elif not is_set[read]:
            raise Refused("ReadBeforeSet", place)
    if output >= wires:
        raise Refused("WireRange", start + 2 + count)
    if is_set[output]:
        raise Refused("SetTwice", start + 2 + count)
    is_set[output] = 1
    return Gate(name.decode(), tuple(reads), output)


def take_circuit(tokens: Tokens) -> Circuit:
    """The circuit that all tokens say."""
    gate_count = tokens.take_count(MOST_GATES)
    wires = tokens.take_count(MOST_WIRES)
    input_sizes = tokens.take_sizes(wires)
    output_sizes = tokens.take_sizes(wires)
    is_set = bytearray(wires)
    is_set[: sum(input_sizes)] = b"\1" * sum(input_sizes)
    gates = [take_gate(tokens, is_set) for _ in range(gate_count)]
    tokens.end()
    unset = is_set.find(0, wires - sum(output_sizes))
    if unset != -1:
        raise Refused("OutputUnset", unset)
    return Circuit(wires, input_sizes, output_sizes, gates)


def read(text: bytes) -> Union[Circuit, Fault]:
    """The circuit of a text, or the text's first fault."""
    try:
        return take_circuit(Tokens(text))
    except Refused as refused:
        return refused.fault


def evaluate(circuit: Circuit, bits: List[int]) -> List[int]:
    """The outputs at these inputs, which are as many as the circuit has."""
    assert len(bits) == circuit.inputs
    values = list(bits) + [0] * (circuit.wires - len(bits))
    for name, inputs, output in circuit.gates:
        if name == "EQ":
            values[output] = inputs[0]
        elif name == "EQW":
            values[output] = values[inputs[0]]
        elif name == "INV":
            values[output] = 1 - values[inputs[0]]
        elif name == "XOR":
            values[output] = values[inputs[0]] ^ values[inputs[1]]
        else:
            values[output] = values[inputs[0]] & values[inputs[1]]
    return values[circuit.wires - circuit.outputs :]


def word_of(bits: List[int]) -> str:
    """The word of a list of bits."""
    return "".join(map(str, bits)) or "none"


def bits_of(word: str) -> List[int]:
    """The bits of a word that is one."""
    return [] if word == "none" else [int(bit) for bit in word]


def eval_found(found: Union[Circuit, Fault], word: str) -> Tuple[str, int]:
    """The line and the status of an evaluation at these bits, where a text was read as this."""
    if isinstance(found, Fault):
        return f"refused {found.name} {found.number} {found.place}", 3
    bits = bits_of(word)
    if len(bits) != found.inputs:
        return f"refused bits {found.inputs} {len(bits)}", 3
    return word_of(evaluate(found, bits)), 0


def run(words: List[str]) -> Tuple[str, int]:
    """The line and the status of these words of a command line."""
    if len(words) != 3 or words[0] != "eval" or any(word.startswith("-") for word in words):
        return USAGE, 2
    _, name, bits = words
    if not re.fullmatch("[01]+|none", bits):
        return USAGE, 2
    try:
        with open(name, "rb") as file:
            text = file.read(MOST_BYTES + 1)
    except OSError:
        return "failed shelf", 4
    if len(text) > MOST_BYTES:
        return f"refused TooLong 0 {MOST_BYTES}", 3
    return eval_found(read(text), bits)


def main() -> int:
    line, status = run(sys.argv[1:])
    print(line)
    return status


if __name__ == "__main__":
    sys.exit(main())
