"""Rooms where `serve` and `prove` of the built program meet, or `serve-arith` and `prove-arith`, with their files, journals and logs.

A room has one verifier's file with its journal, and the prover's file in the hands of some holders, each
with a copy of file and journal, as nothing promises that two runs may use a journal at once. A holder
proves again and again over its own journal. All holders rely on the verifier that it grants no unit
twice: that is what is tested. A prover that relies on no verifier has one file with one journal.
"""
import pathlib
import struct
from typing import Dict, List, NamedTuple, Optional, Tuple, Union

import arithmetic
import bristol
from common import frame, sha256
from dealt_files import Params, deal, journal
from ends import Job, Link, hold, verify
from processes import Process, Ran, Service
from published import TOP
from session import LONG, Claim, ElementsClaim, Extended

Span = Tuple[int, int]

DIRECT = Params(0, 0, 0, 0, 0)
SMALL = Params(kind=1, height=6, trees=2, base=10, total=0)
TINY = Params(kind=1, height=1, trees=1, base=10, total=0)
WIDE = Params(kind=1, height=10, trees=8, base=64, total=0)

HELLO_BYTES, GRANT_BYTES = 102, 21

# A key and a block of FIPS 197, appendix B.
AES_BITS = f"{0x2B7E151628AED2A6ABF7158809CF4F3C3243F6A8885A308D313198A2E0370734:0256b}"
GE64, AES = ((TOP / "examples" / name).read_bytes() for name in ("ge64.txt", "aes128.txt"))


def swapped(text: bytes, half: int) -> bytes:
    """The same circuit with its first inputs, so many, behind as many others."""

    def wire(word: bytes) -> bytes:
        number = int(word)
        return word if number >= 2 * half else str((number + half) % (2 * half)).encode()

    heading, gates = text.split(b"\n\n", 1)
    lines = []
    for line in gates.splitlines():
        words = line.split()
        if words:
            reads = 2 + int(words[0])
            lines.append(b" ".join(words[:2] + [wire(word) for word in words[2 : reads + 1]] + words[reads + 1 :]))
    return heading + b"\n\n" + b"\n".join(lines) + b"\n"


# AES-128 whose first inputs are the block, and then the key: the block may be public, and the key private.
BLOCK_FIRST, BLOCK_BITS = swapped(AES, 128), AES_BITS[128:] + AES_BITS[:128]


class Subject(NamedTuple):
    """What sessions are about: a circuit's text, the prover's bits, the kind of files, sections, and how many bits are public."""

    name: str
    text: bytes
    bits: str
    kind: Params = DIRECT
    section: int = LONG
    public: int = 0

    def command(self, name: str) -> str:
        """The command of this name about such a circuit."""
        return name

    def files(self) -> Dict[str, bytes]:
        """The files that commands take beside the circuit."""
        return {}

    def words(self) -> List[str]:
        """The option that names the public bits."""
        return ["--public", self.bits[: self.public]] if self.public else []

    def private(self) -> str:
        """The word of the prover's inputs."""
        return self.found()

    def outputs(self) -> str:
        """The word of the claimed outputs."""
        return bristol.word_of(list(self.job(0).outputs))

    def found(self) -> str:
        """The prover's inputs, as an audit says them."""
        return self.bits[self.public :] or "none"

    def job(self, total: int) -> Job:
        circuit = bristol.read(self.text)
        assert isinstance(circuit, bristol.Circuit)
        bits = [int(bit) for bit in self.bits]
        claim = Claim(circuit, sha256(self.text), bits, self.public)
        return Job(claim, tuple(bristol.evaluate(circuit, bits)), extended_of(self.kind), total, self.section)

    def size(self) -> int:
        """The units of a session."""
        return self.job(0).units(self.section)


def extended_of(kind: Params) -> Optional[Extended]:
    return Extended(kind.height, kind.trees, kind.base) if kind.kind else None


class ElementsSubject(NamedTuple):
    """The same of sessions about an arithmetic circuit, at the prover's elements."""

    name: str
    text: bytes
    inputs: List[int]
    kind: Params = DIRECT
    section: int = LONG

    def command(self, name: str) -> str:
        return f"{name}-arith"

    def files(self) -> Dict[str, bytes]:
        lists = {"values": self.inputs, "outputs": list(self.job(0).outputs)}
        return {name: "".join(f"{element}\n" for element in elements).encode() for name, elements in lists.items()}

    def words(self) -> List[str]:
        return []

    def private(self) -> str:
        return "values"

    def outputs(self) -> str:
        return "outputs"

    def found(self) -> str:
        return arithmetic.word_of(self.inputs)

    def job(self, total: int) -> Job:
        circuit = arithmetic.read(self.text)
        assert isinstance(circuit, arithmetic.Circuit)
        outputs = arithmetic.evaluate(circuit, self.inputs)
        assert isinstance(outputs, list)
        claim = ElementsClaim(circuit, sha256(self.text), self.inputs)
        return Job(claim, tuple(outputs), extended_of(self.kind), total, self.section)

    def size(self) -> int:
        return self.job(0).units(self.section)


AnySubject = Union[Subject, ElementsSubject]


def area_of(data: bytes) -> bytes:
    """The slots of a journal's active area: of the open head with the greater generation, and of equal ones the first."""
    slots = int.from_bytes(data[24:32], "little")
    areas = [data[at : at + 32 * (slots + 1)] for at in (64, 96 + 32 * slots)]
    opened = [area for area in areas if area[31] == 0x5A]
    return max(opened, key=lambda area: int.from_bytes(area[:8], "little"))[32:]


def slots_of(data: bytes) -> List[Span]:
    """The bodies that a journal says: those of the first slots of its active area, up to the first that is closed."""
    area = area_of(data)
    found: List[Span] = []
    for at in range(0, len(area), 32):
        if area[at + 31] != 0x5A:
            break
        found.append(struct.unpack("<QQ", area[at : at + 16]))
    return found


def are_apart(spans: List[Span]) -> bool:
    ordered = sorted(spans)
    are_spans = all(start < end for start, end in spans)
    return are_spans and all(a[1] <= b[0] for a, b in zip(ordered, ordered[1:]))


class Room:
    """A folder with a pair of files, and the program."""

    def __init__(self, program: str, folder: pathlib.Path, subject: AnySubject, total: int, holders: int):
        self.program, self.folder, self.subject, self.total = [program], folder, subject, total
        self.job = subject.job(total)
        self.size = self.job.units(subject.section)
        self.outputs = subject.outputs()
        folder.mkdir()
        for name, data in {"circuit": subject.text, **subject.files()}.items():
            self.put(name, data)
        self.deal()
        self.holders = [f"p{number}" for number in range(holders)]
        for holder in self.holders:
            (folder / holder).hardlink_to(folder / "x.prover")
            (folder / f"{holder}.journal").write_bytes((folder / "x.prover.journal").read_bytes())
        self.logs_apart: Dict[int, bytes] = {}

    def deal(self) -> None:
        """Deals from the seed."""
        prover, verifier = deal(self.subject.kind._replace(total=self.total))
        self.put("x.prover", prover)
        self.put("x.verifier", verifier)
        self.put("x.prover.journal", journal(0, self.total))
        self.put("x.verifier.journal", journal(1, self.total))

    def put(self, name: str, data: bytes) -> None:
        (self.folder / name).write_bytes(data)

    def get(self, name: str) -> bytes:
        return (self.folder / name).read_bytes()

    # ---- processes

    def run_by(self, program: List[str], *words: str) -> Ran:
        return Process(program, self.folder, words).end()

    def run(self, *words: str) -> Ran:
        return self.run_by(self.program, *words)

    def service(self, sessions: int, workers: int, *more: str) -> Service:
        words = ["x.verifier", "circuit", self.outputs, "--sessions", str(sessions)]
        words += ["--workers", str(workers), "--section", str(self.subject.section), "--logs", "log", *self.subject.words(), *more]
        return Service(self.program, self.folder, words, self.subject.command("serve"))

    def proving(self, place: str, holder: str) -> Process:
        words = [self.subject.command("prove"), place, holder, "circuit", self.subject.private(), self.outputs, *self.subject.words()]
        return Process(self.program, self.folder, words)

    # ---- journals

    def get_journal(self, name: str, kind: int) -> bytes:
        """A file's journal, whose header and length are those of a new one."""
        data, new = self.get(f"{name}.journal"), journal(kind, self.total)
        assert len(data) == len(new) and data[:64] == new[:32] + self.get(name)[32:64], name
        return data

    def ceiling(self) -> int:
        """The ceiling that the verifier's journal says."""
        last = 0
        for ceiling, other in slots_of(self.get_journal("x.verifier", 1)):
            assert other == 0 and last < ceiling <= self.total and ceiling % 16 * (ceiling - self.total) == 0
            last = ceiling
        return last

    def ceiling_over(self, end: int) -> int:
        """The ceiling to which the journal is raised for units up to this one."""
        return min(self.total, -(-end // 16) * 16)

    def claims(self, holder: str) -> List[Span]:
        """The claims that a holder's journal says."""
        claims = slots_of(self.get_journal(holder, 0))
        assert all(end <= self.total for _, end in claims) and are_apart(claims), claims
        return claims

    # ---- logs

    def log_apart(self, start: int) -> bytes:
        """The whole log of an honest session whose grant starts at this unit."""
        if start not in self.logs_apart:
            end = verify(self.job, Link(hold(self.job, start)[0]), start)[1]
            self.logs_apart[start] = b"".join(data for _, data in end.log)
        return self.logs_apart[start]

    def check_log(self, start: int) -> Tuple[bool, int]:
        """Whether the stored log of this grant is whole, and how many bytes the prover sent in it."""
        log, whole = self.get(f"log.{start}"), self.log_apart(start)
        assert whole.startswith(log), (self.folder, start)
        return log == whole, sent_by_prover(log)

    def check_audit(self, start: int, is_whole: bool) -> None:
        """An audit of the stored log of this grant finds the prover's inputs exactly where it is whole."""
        words = [self.subject.command("audit"), "circuit", self.outputs, "x.prover", "x.verifier", f"log.{start}", *self.subject.words()]
        found = (f"inputs {self.subject.found()}\n", 0) if is_whole else ("not accepted\n", 1)
        ran = self.run(*words)
        assert ran == found, (self.folder, start, ran)


def sent_by_prover(log: bytes) -> int:
    """How many bytes of a log are the prover's."""
    at = count = 0
    while at < len(log):
        length = 5 + int.from_bytes(log[at + 1 : at + 5], "little")
        count += len(log[at : at + length]) * (log[at] in (1, 3, 5, 7, 8))
        at += length
    return count


class DealtRoom(Room):
    """A room whose files the program dealt: of logs the frames are known, and the first and last bytes."""

    def deal(self) -> None:
        kind = self.subject.kind
        words = ["deal", "x", "--units", str(self.total)]
        if kind.kind:
            words += ["--trees", str(kind.trees), "--height", str(kind.height), "--base", str(kind.base)]
        ran = self.run(*words)
        self.id = self.get("x.prover")[32:64]
        name = "extended" if kind.kind else "direct"
        assert ran == (f"id {self.id.hex()}\nunits {self.total} {name}\n", 0), ran

    def frames(self) -> List[Tuple[int, int]]:
        """The kinds of the frames of a whole log, and the lengths of their payloads."""
        products, givens, params = len(self.job.claim.products()), self.job.claim.givens(), self.job.params
        lengths = [(1, len(self.job.hello()) - 5), (2, 16)]
        if params is not None:
            lengths += [(3, params.trees * (params.height + 8))] * self.size
            lengths += [(4, params.trees * (32 * params.height + 8))] * self.size
        sections = -(-products // self.subject.section)
        lengths += [(5, 8 * givens), (6, 8), (7, 16 * sections)]
        return lengths + [(8, 8 * len(self.job.opened())), (9, 5)]

    def check_log(self, start: int) -> Tuple[bool, int]:
        log, at = self.get(f"log.{start}"), 0
        hello = self.job.hello()
        first = hello[:5] + self.id + hello[37:]
        first += frame(2, struct.pack("<QII", start, self.size, self.subject.section))
        assert log.startswith(first[: len(log)]) and len(log) >= HELLO_BYTES, start
        for kind, length in self.frames():
            head = bytes([kind]) + struct.pack("<I", length)
            assert log[at:].startswith(head[: len(log[at:])]), (start, at)
            at += 5 + length
        assert len(log) < at or log.endswith(frame(9, bytes(5))), start
        return len(log) == at, sent_by_prover(log)


def check_honest(room: Room, workers: int) -> int:
    """Each holder proves once, all at the same time; gives how many sessions there were."""
    before, claimed = room.ceiling(), {holder: room.claims(holder) for holder in room.holders}
    service = room.service(len(room.holders), workers)
    provers = [room.proving(service.place(), holder) for holder in room.holders]
    ran = [prover.end() for prover in provers]
    starts = [before + room.size * place for place in range(len(room.holders))]
    lines = [f"units {start}..{start + room.size} accepted\n" for start in starts]
    came = service.end()
    assert came == ("".join(lines), 0), (room.folder, came)
    assert sorted(ran) == sorted((line, 0) for line in lines), (room.folder, ran)
    for holder, (line, _) in zip(room.holders, ran):
        start = starts[lines.index(line)]
        assert room.claims(holder) == claimed[holder] + [(start, start + room.size)], (room.folder, holder)
    for start in starts:
        assert room.check_log(start)[0], room.folder
        room.check_audit(start, True)
    end = starts[-1] + room.size
    assert room.ceiling() == room.ceiling_over(end), room.folder
    return len(starts)
