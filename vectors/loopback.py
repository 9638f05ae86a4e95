#!/usr/bin/env python3
"""Serves provers over connections of this machine with the program, again and again over one journal.

`python3 vectors/loopback.py PROGRAM [WORKERS]` deals a file, as `dealt_files.py` has it, and runs `serve` and `serve-arith` in turn with
provers of `ends.py`: honest ones at the same time, honest ones among some that end early, send a wrong byte or prove something else, and runs
that are killed once a session has its grant. It compares lines, statuses and logs with what the provers saw, has each accepted log audited, and
asks that no unit is granted twice over all runs. Last the program proves to itself, and is refused where the other end is of the other kind.
"""
import functools
import pathlib
import socket
import struct
import sys
import tempfile
from typing import Callable, Dict, List, NamedTuple, Optional, Tuple

from common import frame
from dealt_files import Params, deal, journal
from ends import GRANT, End, Ended, Job, Link, prove_steps
from parties import AnySubject, ElementsSubject, Subject
from processes import SECONDS, Process, Ran, Service, at_once, end_all
from published import ADDER, BALANCES, ELEMENTS

PARAMS = Params(0, 0, 0, 0, 1600)
BITS = "".join(f"{number:064b}"[::-1] for number in (5, 7))

Span = Tuple[int, int]


class Matter(NamedTuple):
    """What services are about: a subject, under names of its own in the folder, and a job of another kind."""

    subject: AnySubject
    names: Dict[str, str]
    other: Job

    def job(self) -> Job:
        return self.subject.job(PARAMS.total)

    def word(self, word: str) -> str:
        """A word of the subject, where it is a file's name the one in the folder."""
        return self.names.get(word, word)

    def claim_words(self) -> List[str]:
        return [self.word("circuit"), self.word(self.subject.outputs())]

    def files(self) -> Dict[str, bytes]:
        given = {"circuit": self.subject.text, **self.subject.files()}
        return {self.word(name): data for name, data in given.items()}


SUM = Subject("sum", ADDER, BITS)
BALANCE = ElementsSubject("balances", BALANCES, ELEMENTS)
MATTERS = [
    Matter(SUM, {"circuit": "adder.txt"}, BALANCE.job(PARAMS.total)),
    Matter(BALANCE, {"circuit": "balances.txt", "values": "balances.values", "outputs": "balances.outputs"}, SUM.job(PARAMS.total)),
]


class Socket(Link):
    """A connection to the program."""

    def __init__(self, address: Tuple[str, int]):
        super().__init__(b"")
        self.stream = socket.create_connection(address, timeout=SECONDS)

    def receive(self, most: int) -> bytes:
        return self.stream.recv(most)


class Prover(End):
    """An end that sends what it notes."""

    def send(self, data: bytes) -> None:
        self.link.stream.sendall(data)
        self.note(self.side, data)


class Seen(NamedTuple):
    """How a prover's session ended, its first unit, and the bytes that passed."""

    outcome: str
    start: Optional[int]
    log: bytes
    expected: str


Peer = Callable[[Matter, Tuple[str, int]], Seen]


def seen(end: Prover, outcome: str, expected: str) -> Seen:
    start = None if end.units == "none" else int(end.units.split("..")[0])
    return Seen(outcome, start, b"".join(data for _, data in end.log), expected)


def honest(matter: Matter, address: Tuple[str, int]) -> Seen:
    """A prover that says what an honest one does."""
    end = Prover("p", Socket(address))
    try:
        prove_steps(end, matter.job(), lambda start, count: None)
    except Ended as ended:
        return seen(end, str(ended), "accepted")
    assert False


def leaves(matter: Matter, address: Tuple[str, int]) -> Seen:
    """A prover that ends once it has its grant."""
    end = Prover("p", Socket(address))
    end.send(matter.job().hello())
    (start,) = struct.unpack("<Q", end.take(GRANT)[5:13])
    end.units = f"{start}.."
    end.link.stream.close()
    return seen(end, "left", "broken ended 102")


def refused(hello: bytes, expected: str, address: Tuple[str, int]) -> Seen:
    """A prover whose hello is refused."""
    end = Prover("p", Socket(address))
    end.send(hello)
    assert end.take(GRANT) == frame(10, b"\x01")
    return seen(end, "refused", expected)


def lies(matter: Matter, address: Tuple[str, int]) -> Seen:
    """A prover whose hello is about another circuit."""
    job = matter.job()
    return refused(job._replace(claim=job.claim._replace(digest=bytes(32))).hello(), "no grant hello statement", address)


def strays(matter: Matter, address: Tuple[str, int]) -> Seen:
    """A prover about a circuit of the other kind."""
    return refused(matter.other.hello(), "no grant hello version", address)


def begun(program: str, folder: pathlib.Path, matter: Matter, sessions: int, workers: int) -> Service:
    """The program, as it serves over the files of a folder."""
    words = ["v", *matter.claim_words(), "--sessions", str(sessions), "--workers", str(workers), "--logs", "log"]
    return Service([program], folder, words, matter.subject.command("serve"))


def meet(service: Service, matter: Matter, peers: List[Peer]) -> List[Seen]:
    """What peers saw that called at the same time."""
    return at_once([functools.partial(peer, matter, service.address) for peer in peers])


def span_of(start: int, matter: Matter) -> Span:
    return start, start + matter.subject.size()


def line_of(seen_by: Seen, matter: Matter) -> str:
    if seen_by.start is None:
        return seen_by.expected
    return "units {}..{} {}".format(*span_of(seen_by.start, matter), seen_by.expected)


def check_audit(program: str, folder: pathlib.Path, matter: Matter, each: Seen) -> None:
    """An audit of an accepted session's log finds the prover's inputs, and one of another log finds nothing."""
    assert (folder / f"log.{each.start}").read_bytes() == each.log, each.start
    words = [matter.subject.command("audit"), *matter.claim_words(), "p", "v", f"log.{each.start}"]
    wanted = Ran(f"inputs {matter.subject.found()}\n", 0) if each.outcome == "accepted" else Ran("not accepted\n", 1)
    assert Process([program], folder, words).end() == wanted, (words, wanted)


def check_service(program: str, folder: pathlib.Path, matter: Matter, peers: List[Peer], workers: int, status: int) -> List[Span]:
    """Serves these peers, and gives the units that were granted."""
    service = begun(program, folder, matter, len(peers), workers)
    all_seen = meet(service, matter, peers)
    text, ended = service.end()
    granted = sorted((each for each in all_seen if each.start is not None), key=lambda each: each.start)
    others = sorted(line_of(each, matter) for each in all_seen if each.start is None)
    lines = [line_of(each, matter) for each in granted] + others
    assert text.splitlines() == lines, (text, lines)
    assert ended == status, ended
    for each in granted:
        check_audit(program, folder, matter, each)
    return [span_of(each.start, matter) for each in granted]


def check_stopped(program: str, folder: pathlib.Path, matter: Matter, workers: int) -> List[Span]:
    """Kills the program once three sessions have their grants, and gives the units of these."""
    service = begun(program, folder, matter, 9, workers)
    all_seen = meet(service, matter, [leaves] * 3)
    service.kill()
    service.end()
    return [span_of(each.start, matter) for each in all_seen]


def proving(program: str, folder: pathlib.Path, matter: Matter, place: str) -> Process:
    """The program, as it proves over the files of a folder."""
    circuit, outputs = matter.claim_words()
    words = [matter.subject.command("prove"), place, "p", circuit, matter.word(matter.subject.private()), outputs]
    return Process([program], folder, words)


def check_itself(program: str, folder: pathlib.Path, workers: int) -> List[Span]:
    """The program proves to itself, each kind to each."""
    spans = []
    for matter in MATTERS:
        for prover in MATTERS:
            service = begun(program, folder, matter, 1, workers)
            came = proving(program, folder, prover, service.place()).end()
            text, status = service.end()
            if prover is not matter:
                assert (came, text, status) == (Ran("peer refused 1\n", 8), "no grant hello version\n", 1), (came, text, status)
                continue
            start = int(text.split(" ")[1].split("..")[0])
            line = "units {}..{} accepted\n".format(*span_of(start, matter))
            assert came == Ran(line, 0) and (text, status) == (line, 0), (came, text, status)
            spans.append(span_of(start, matter))
    return spans


def check_runs(program: str, folder: pathlib.Path, workers: int) -> List[Span]:
    """All runs over one journal, and the units that were granted in them."""
    prover, verifier = deal(PARAMS)
    files = {"p": prover, "p.journal": journal(0, PARAMS.total), "v": verifier, "v.journal": journal(1, PARAMS.total)}
    for name, data in [*files.items(), *(each for matter in MATTERS for each in matter.files().items())]:
        (folder / name).write_bytes(data)
    spans: List[Span] = []
    for _ in range(3):
        for matter in MATTERS:
            spans += check_service(program, folder, matter, [honest] * 8, workers, 0)
            spans += check_stopped(program, folder, matter, workers)
            spans += check_service(program, folder, matter, [honest, leaves, lies, strays, honest, leaves, honest], workers, 1)
    return spans + check_itself(program, folder, workers)


def main() -> int:
    program = str(pathlib.Path(sys.argv[1]).resolve())
    workers = int(sys.argv[2]) if len(sys.argv) > 2 else 4
    with tempfile.TemporaryDirectory() as name:
        try:
            spans = sorted(check_runs(program, pathlib.Path(name), workers))
        finally:
            end_all()
    assert all(first[1] <= second[0] for first, second in zip(spans, spans[1:])), spans
    print(f"{len(spans)} sessions in 22 runs: no unit granted twice")
    return 0


if __name__ == "__main__":
    sys.exit(main())
