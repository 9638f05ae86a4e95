"""Whole sessions about the outputs of a circuit, computed apart from the program that is tested against them.

Both ends are computed, from the files that the seed of 32 bytes 7 gives: what the prover finds must fit the verifier's keys, and
the two sides of each equation must agree. It follows `docs/PROTOCOL.md`, and shares nothing with the program. Circuits are read
by `bristol.py`, and arithmetic ones by `arithmetic.py`.
"""
import functools
import struct
from typing import List, NamedTuple, Optional, Sequence, Tuple, Union

import arithmetic
import bristol
from chacha import word
from common import (
    CODE_SEED,
    FILE_ID,
    KEY,
    P,
    PROVER_COINS,
    VERIFIER_COINS,
    Correlation,
    dealt_correlations,
    dealt_transfers,
    element,
    elements,
    frame,
    from_word,
    sha256,
    words,
    xor,
)

LONG = 2**20  # the most products of a section


class Extended(NamedTuple):
    """The numbers of files of kind extended: the height of a tree, the trees of a unit, and its base."""

    height: int
    trees: int
    base: int


class Product(NamedTuple):
    """The wires of two factors, and which given value is to be their product."""

    a: int
    b: int
    given: int


class Claim(NamedTuple):
    """A Boolean circuit, the digest of its file that a hello has, the input bits, and how many of the first are public."""

    circuit: bristol.Circuit
    digest: bytes
    bits: List[int]
    public: int = 0

    def public_bits(self) -> List[int]:
        return self.bits[: self.public]

    def version(self, is_long: bool = False) -> int:
        """The version of a hello, by its form."""
        return 2 if is_long else 1

    def digests(self, outputs: Sequence[int]) -> bytes:
        """The digests of its statement: of the circuit's text, of the claimed outputs, and of the public bits."""
        said = ("".join(map(str, bits)).encode() for bits in (outputs, self.public_bits()))
        return self.digest + b"".join(map(sha256, said))

    def hello(self, outputs: Sequence[int]) -> bytes:
        """The hello about these outputs: in the long form exactly where there are public bits."""
        digests, version = self.digests(outputs), bytes([self.version(self.public > 0)])
        return frame(1, FILE_ID + digests[:64] + version + digests[64:] * (self.public > 0))

    def givens(self) -> int:
        """How many values are given: one for each product."""
        return len(self.products())

    def products(self) -> List[Product]:
        """Each private input wire times itself, then the two wires of each XOR and AND."""
        pairs = [(wire, wire) for wire in range(self.public, self.circuit.inputs)]
        pairs += [gate.inputs for gate in self.circuit.gates if gate.name in ("XOR", "AND")]
        return [Product(a, b, i) for i, (a, b) in enumerate(pairs)]

    def carried(self, given: List[int], one: int) -> List[int]:
        """A number for each wire, from the given ones: values where `one` is 1, MACs where it is 0, keys where it is the key."""
        circuit, private = self.circuit, self.circuit.inputs - self.public
        wires = [bit * one for bit in self.public_bits()] + given[:private] + [0] * (circuit.wires - circuit.inputs)
        rest = iter(given[private:])
        for name, reads, output in circuit.gates:
            if name == "EQ":
                wires[output] = reads[0] * one
            elif name == "EQW":
                wires[output] = wires[reads[0]]
            elif name == "INV":
                wires[output] = (one - wires[reads[0]]) % P
            elif name == "AND":
                wires[output] = next(rest)
            else:
                wires[output] = (wires[reads[0]] + wires[reads[1]] - 2 * next(rest)) % P
        return wires

    def values(self) -> List[int]:
        """The bit of each wire, by the truth tables."""
        circuit = self.circuit
        bits = self.bits + [0] * (circuit.wires - circuit.inputs)
        for name, reads, output in circuit.gates:
            known = [bits[wire] for wire in reads] if name != "EQ" else list(reads)
            bits[output] = {"XOR": sum(known) % 2, "AND": int(all(known)), "INV": 1 - known[0]}.get(name, known[0])
        assert bits[circuit.wires - circuit.outputs :] == bristol.evaluate(circuit, self.bits)
        return bits

    def outputs(self) -> List[int]:
        """What the circuit gives."""
        return self.values()[self.circuit.wires - self.circuit.outputs :]

    def given_values(self) -> List[int]:
        """The products of bits that an honest prover gives."""
        bits = self.values()
        return [bits[a] * bits[b] for a, b, _ in self.products()]

    def opened(self, outputs: Sequence[int]) -> List[Tuple[int, int]]:
        """The output wires, each with what is claimed of it."""
        return list(zip(range(self.circuit.wires - self.circuit.outputs, self.circuit.wires), outputs))

    def private_word(self, values: List[int]) -> str:
        """The private inputs among the values of all wires, as they are printed."""
        inputs = values[self.public : self.circuit.inputs]
        assert all(value in (0, 1) for value in inputs)
        return bristol.word_of(inputs)


class ElementsClaim(NamedTuple):
    """An arithmetic circuit, the digest of its file, and the input elements."""

    circuit: arithmetic.Circuit
    digest: bytes
    inputs: List[int]

    def version(self, is_long: bool = False) -> int:
        """The version of a hello, which has one form."""
        assert not is_long
        return 4

    def digests(self, outputs: Sequence[int]) -> bytes:
        """The digests of its statement, as those of a Boolean circuit: of the claimed elements, and of no public bits."""
        return self.digest + sha256(elements(outputs)) + sha256(b"")

    def hello(self, outputs: Sequence[int]) -> bytes:
        return frame(1, FILE_ID + self.digests(outputs)[:64] + bytes([self.version()]))

    def givens(self) -> int:
        """How many values are given: one for each input, and one for each product."""
        return self.circuit.inputs + self.circuit.products

    def products(self) -> List[Product]:
        """The two wires of each MUL, whose given value is behind those of the inputs and of earlier ones."""
        pairs = [gate.reads for gate in self.circuit.gates if gate.name == "MUL"]
        return [Product(a, b, self.circuit.inputs + i) for i, (a, b) in enumerate(pairs)]

    def carried(self, given: List[int], one: int) -> List[int]:
        """A number for each wire, from the given ones: values where `one` is 1, MACs where it is 0, keys where it is the key."""
        circuit = self.circuit
        wires = given[: circuit.inputs] + [0] * (circuit.wires - circuit.inputs)
        rest = iter(given[circuit.inputs :])
        for gate in circuit.gates:
            if gate.name == "MUL":
                wires[gate.output] = next(rest)
            elif gate.name == "ADD":
                wires[gate.output] = sum(wires[wire] for wire in gate.reads) % P
            elif gate.name == "CONST":
                wires[gate.output] = gate.value * one % P
        return wires

    def values(self) -> List[int]:
        """The element of each wire."""
        return arithmetic.values(self.circuit, self.inputs)

    def outputs(self) -> List[int]:
        """What the circuit gives."""
        return self.values()[self.circuit.wires - self.circuit.outputs :]

    def given_values(self) -> List[int]:
        """The inputs and the products that an honest prover gives."""
        values = self.values()
        return self.inputs + [values[a] * values[b] % P for a, b, _ in self.products()]

    def opened(self, outputs: Sequence[int]) -> List[Tuple[int, int]]:
        """The output wires, each with what is claimed of it, and then each wire that is asserted to be 0."""
        circuit = self.circuit
        asserted = [gate.reads[0] for gate in circuit.gates if gate.name == "ASSERT"]
        return list(zip(range(circuit.wires - circuit.outputs, circuit.wires), outputs)) + [(wire, 0) for wire in asserted]

    def private_word(self, values: List[int]) -> str:
        """The inputs among the values of all wires, as they are printed."""
        return arithmetic.word_of(values[: self.circuit.inputs])


AnyClaim = Union[Claim, ElementsClaim]


# ---- extension


def leaf(node: bytes) -> int:
    return from_word(struct.unpack("<Q", node[:8])[0])


def children(node: bytes) -> List[bytes]:
    digest = sha256(node)
    return [digest[:16], digest[16:]]


def grown(root: bytes, height: int) -> List[List[bytes]]:
    """The levels of a tree, its root first."""
    rows = [[root]]
    for _ in range(height):
        rows.append([child for node in rows[-1] for child in children(node)])
    return rows


def punctured(height: int, place: int, sums: List[bytes]) -> List[int]:
    """The leaves of a tree without the path to a place, from the sums of the sides away from it."""
    row: List[Optional[bytes]] = [None]
    for level in range(height):
        below = [child for node in row for child in (children(node) if node is not None else [None, None])]
        away = 1 - (place >> (height - 1 - level)) % 2
        missing = 2 * (place >> (height - level)) + away
        found = sums[level]
        for j in range(away, len(below), 2):
            if j != missing:
                found = xor(found, below[j])
        below[missing] = found
        row = below
    return [0 if node is None else leaf(node) for node in row]


@functools.lru_cache(maxsize=None)
def columns(params: Extended) -> List[List[int]]:
    """The ten places of each column of the code."""
    count = params.trees * 2**params.height
    return [[word(CODE_SEED, 0, 10 * j + i) % params.base for i in range(10)] for j in range(count)]


def coded(params: Extended, base: List[int], noise: List[int]) -> List[int]:
    """Each entry of noise with the ten base elements of its column, for values, MACs or keys."""
    return [(sum(base[i] for i in places) + entry) % P for places, entry in zip(columns(params), noise)]


def extend(params: Extended, unit: int, wrong: Optional[str] = None) -> Tuple[bytes, bytes, List[Correlation]]:
    """The ask and the reply of a unit, and its correlations. A wrong ask has another flip, or 1 more in the element."""
    dealt = dealt_correlations(unit, params.base + params.trees)
    transfers = dealt_transfers(unit, params.trees * params.height)
    ask, reply = b"", b""
    values: List[int] = []
    macs: List[int] = []
    keys: List[int] = []
    for tree in range(params.trees):
        place = word(PROVER_COINS, 4 * unit + 2, 2 * tree) % 2**params.height
        noise = from_word(word(PROVER_COINS, 4 * unit + 2, 2 * tree + 1))
        x, m, k = dealt[params.base + tree]
        difference = (noise - x + (wrong == "element")) % P
        rows = grown(words(VERIFIER_COINS, 4 * unit, 2 * tree, 2), params.height)
        sums = []
        for level in range(params.height):
            pads, bit = transfers[tree * params.height + level]
            choice = 1 - (place >> (params.height - 1 - level)) % 2
            flip = bit ^ choice ^ (wrong == "flip")
            ask += bytes([flip])
            sides = [bytes(16), bytes(16)]
            for j, node in enumerate(rows[level + 1]):
                sides[j % 2] = xor(sides[j % 2], node)
            masked = [xor(sides[0], pads[flip]), xor(sides[1], pads[1 - flip])]
            reply += masked[0] + masked[1]
            sums.append(xor(masked[choice], pads[bit]))
        leaves = [leaf(node) for node in rows[-1]]
        offset = (k + difference * KEY - sum(leaves)) % P
        ask += element(difference)
        reply += element(offset)
        found = punctured(params.height, place, sums)
        assert wrong == "flip" or all(a == b for j, (a, b) in enumerate(zip(found, leaves)) if j != place)
        hidden = (m - offset - sum(found)) % P
        values += [noise if j == place else 0 for j in range(2**params.height)]
        macs += [hidden if j == place else v for j, v in enumerate(found)]
        keys += leaves
    base = dealt[: params.base]
    values = coded(params, [c.x for c in base], values)
    macs = coded(params, [c.m for c in base], macs)
    keys = coded(params, [c.k for c in base], keys)
    assert wrong or all(k == (m + x * KEY) % P for x, m, k in zip(values, macs, keys))
    return frame(3, ask), frame(4, reply), [Correlation(*each) for each in zip(values, macs, keys)]


# ---- sessions


class Session(NamedTuple):
    """The frames up to the verdict, in order, and both sides of the equation of each section."""

    frames: List[bytes]
    sides: List[Tuple[int, int]]


def correlations(params: Optional[Extended], need: int, wrong: Optional[str]) -> Tuple[int, List[bytes], List[Correlation]]:
    """How many units a session takes, its frames of asks and replies, and its correlations."""
    size = 64 if params is None else params.trees * 2**params.height
    units = max(1, -(-need // size))
    if params is None:
        return units, [], [each for unit in range(units) for each in dealt_correlations(unit, 64)]
    rounds = [extend(params, unit, wrong if unit == 0 else None) for unit in range(units)]
    frames = [ask for ask, _, _ in rounds] + [reply for _, reply, _ in rounds]
    return units, frames, [each for _, _, made in rounds for each in made]


def session(claim: AnyClaim, params: Optional[Extended], section: int, wrong: Optional[str] = None) -> Session:
    """A session over files of just the units that it takes. `wrong` names what is wrong with the first unit's ask."""
    products = claim.products()
    sections = [products[i : i + section] for i in range(0, len(products), section)]
    units, rounds, made = correlations(params, claim.givens() + len(sections), wrong)
    values = claim.given_values()
    corrections = [(value - c.x) % P for value, c in zip(values, made)]
    given_macs = [c.m for c in made[: len(values)]]
    given_keys = [(c.k + d * KEY) % P for c, d in zip(made, corrections)]
    w, m, k = (claim.carried(given, one) for given, one in ((values, 1), (given_macs, 0), (given_keys, KEY)))
    challenge = from_word(word(VERIFIER_COINS, 1, 0))
    sums, sides = [], []
    for s, part in enumerate(sections):
        mask = made[len(values) + s]
        u, v, left = mask.m, mask.x, mask.k
        for j, (a, b, i) in enumerate(part, 1):
            power = pow(challenge, j, P)
            u += power * m[a] * m[b]
            v += power * (w[a] * m[b] + w[b] * m[a] - given_macs[i])
            left += power * (k[a] * k[b] - given_keys[i] * KEY)
        sums += [u % P, v % P]
        sides.append((left % P, (u + v * KEY) % P))
    outputs = claim.outputs()
    opened = claim.opened(outputs)
    assert wrong or all(k[wire] == (m[wire] + value * KEY) % P for wire, value in opened)
    grant = frame(2, struct.pack("<QII", 0, units, section))
    answers = [frame(5, elements(corrections)), frame(6, element(challenge)), frame(7, elements(sums))]
    return Session([claim.hello(outputs), grant, *rounds, *answers, frame(8, elements([m[wire] for wire, _ in opened]))], sides)


def accepted(claim: AnyClaim, params: Optional[Extended], section: int) -> List[bytes]:
    """All frames of a session that is accepted."""
    frames, sides = session(claim, params, section)
    assert all(left == right for left, right in sides)
    return frames + [frame(9, bytes(5))]


def sent_by_prover(frames: List[bytes]) -> bytes:
    return b"".join(data for data in frames if data[0] in (1, 3, 5, 7, 8))


def sent_by_verifier(frames: List[bytes]) -> bytes:
    return b"".join(data for data in frames if data[0] in (2, 4, 6, 9, 10))
