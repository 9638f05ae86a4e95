"""The exchanges of nodes with a broker of units, computed apart from the program: their frames, what each end sends and takes, which
units a broker leases, and which a node takes and draws.

`docs/PROTOCOL.md` has the frames. A link, and what an end takes up to its first bad byte, are those of `ends.py`: the node's end is on
the prover's side, and the broker's on the verifier's.
"""
import struct
from typing import Dict, NamedTuple, Optional, Tuple, Union

from common import frame, sha256
from ends import MOST_UNITS, Claimant, End, Ended, Field, Grant, Link, Place, anything

NODES = 1024
TRIES = 64
LAST_NUMBER = 2**64 - 1

Span = Tuple[int, int]


# ---- frames


class Want(NamedTuple):
    """What a node sends."""

    node: int
    number: int
    count: int

    def frame(self) -> bytes:
        return frame(11, struct.pack("<IQI", *self))


class Block(NamedTuple):
    """A broker's answer by units."""

    node: int
    number: int
    start: int
    count: int

    def frame(self) -> bytes:
        return frame(12, struct.pack("<IQQI", *self))

    def span(self) -> Span:
        return self.start, self.start + self.count


class Out(NamedTuple):
    """A broker's answer by none, with the unit at which none were left."""

    node: int
    number: int
    at: int

    def frame(self) -> bytes:
        return frame(13, struct.pack("<IQQ", *self))


Reply = Union[Block, Out]


def ranged(size: int, low: int, high: int) -> Field:
    """A number of so many bytes, the low one first, that lies between these: the first bytes of none that does are bad."""

    def begins(part: bytes) -> bool:
        step, first = 256 ** len(part), int.from_bytes(part, "little")
        return first + step * max(0, -(-(low - first) // step)) <= high

    return Field(size, begins, begins)


WANT: Place = {11: [ranged(4, 0, NODES - 1), anything(8), ranged(4, 1, MOST_UNITS)]}
REPLY: Place = {12: [anything(24)], 13: [anything(20)]}


def want_in(data: bytes) -> Want:
    return Want(*struct.unpack("<IQI", data[5:]))


def reply_in(data: bytes) -> Reply:
    return Block(*struct.unpack("<IQQI", data[5:])) if data[0] == 12 else Out(*struct.unpack("<IQQ", data[5:]))


def rounded(count: int) -> int:
    """How many units a broker leases for a want of so many."""
    return -(-count // 16) * 16


# ---- the broker


class Broker:
    """Who leases units by such grants, and keeps the number and the units of each node's last block."""

    def __init__(self, grant: Grant):
        self.grant = grant
        self.kept: Dict[int, Tuple[int, Span]] = {}

    def reply(self, want: Want) -> Reply:
        """The answer. Where the journal refused the units, the exchange ends so."""
        number, span = self.kept.get(want.node, (None, (0, 0)))
        if number != want.number:
            count = rounded(want.count)
            start, refusal = self.grant(count)
            if refusal is not None and refusal.startswith("exhausted"):
                return Out(want.node, want.number, int(refusal.split(" ")[1][3:]))
            if refusal is not None:
                raise Ended(refusal)
            span = start, start + count
            self.kept[want.node] = want.number, span
        return Block(want.node, want.number, span[0], span[1] - span[0])


class Exchange(NamedTuple):
    """How an exchange ended for the broker: `answered`, with the want and the reply, or as a session may."""

    outcome: str
    want: Optional[Want]
    reply: Optional[Reply]
    end: End

    def words(self) -> str:
        """The same, as a line of `session_runs` has it."""
        if self.want is None or self.reply is None:
            return self.outcome
        said = "block={}..{}".format(*self.reply.span()) if isinstance(self.reply, Block) else f"out={self.reply.at}"
        return "answered want={},{},{} {}".format(*self.want, said)


def answer(broker: Broker, link: Link) -> Exchange:
    """The broker's end of an exchange."""
    end = End("v", link)
    try:
        want = want_in(end.take(WANT))
        reply = broker.reply(want)
        end.send(reply.frame())
        return Exchange("answered", want, reply, end)
    except Ended as ended:
        return Exchange(str(ended), None, None, end)


# ---- the node


class Try(NamedTuple):
    """How a try ended for the node: by a reply, or as a session may."""

    outcome: str
    reply: Optional[Reply]
    end: End

    def words(self) -> str:
        """The same, as a line of `session_runs` has it, with what passed: how many bytes in a row, and the first ones of their digest."""
        said = self.outcome
        if self.reply is not None:
            said = ("block" if isinstance(self.reply, Block) else "out") + "=" + ",".join(map(str, self.reply))
        runs = "".join(f" {side}{len(part)}" for side, part in self.end.log)
        return f"{said}{runs} #{sha256(b''.join(part for _, part in self.end.log))[:8].hex()}"


def ask(link: Link, want: Want) -> Try:
    """The node's end of an exchange."""
    end = End("p", link)
    try:
        end.send(want.frame())
        return Try("replied", reply_in(end.take(REPLY)), end)
    except Ended as ended:
        return Try(str(ended), None, end)


class Node:
    """A node of this number, which has its units claimed so, with its pending number and what is left of its block."""

    def __init__(self, node: int, claim: Claimant):
        self.node, self.claim = node, claim
        self.number = 1
        self.block: Span = (0, 0)

    def want(self, count: int) -> Want:
        return Want(self.node, self.number, count)

    def take(self, block: Block) -> Optional[str]:
        """Takes a block that is its own, or gives the outcome by which its units are not claimed."""
        if (block.node, block.number) != (self.node, self.number) or block.number == LAST_NUMBER or block.count == 0:
            return None
        self.number += 1
        refusal = self.claim(block.start, block.count)
        self.block = block.span() if refusal is None else (0, 0)
        return refusal

    def draw(self, count: int) -> Optional[int]:
        """The first of so many units, where these are left of the block."""
        start, end = self.block
        if end - start < count:
            return None
        self.block = start + count, end
        return start
