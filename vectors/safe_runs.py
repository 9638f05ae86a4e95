#!/usr/bin/env python3
"""Silent peers, and runs that would share a journal, against the built program.

`python3 vectors/safe_runs.py PROGRAM` runs, with `--timeout 1` where anybody is waited for:

  - `serve` by four workers with four provers that say nothing: honest provers that call meanwhile are accepted once these were given
    up, and of each silent one the line is `no grant link`;
  - `serve` with a prover that sends a byte of its hello now and then, and never all of it: it is given up after a second in all;
  - `serve` with a prover that says nothing after its grant;
  - `prove` at a verifier that never answers: `failed link` and status 4;
  - `serve`, `serve-many`, `prove` and `migrate` over a journal that another run has: `journal failed 1` and status 5, and the other run
    goes on; `deal` over the names of a `serve` that runs: that one goes on, and the new files have journals of their own;
  - that files, journals and logs that the program makes are their owner's alone, and that two dealings have two ids;
  - `serve --follow`, which says where it listens, and is killed once its first session was accepted: that session's log stands, and audits;
  - `status` of both sides' files, while a service has the journal and after it; and private bits that a file gives.

It prints how many checks there were, and ends with 0 only where all held. It takes some ten seconds.
"""
import pathlib
import socket
import subprocess
import sys
import tempfile
import time
from typing import Callable, List, Tuple

from parties import HELLO_BYTES, Room, Subject
from processes import STARTED, Process, Ran, Service, end_all
from published import AND_GATE

AND = Subject("and", AND_GATE, "11")
PATIENCE = 1
SLACK = 2.0  # seconds by which a loaded machine may be late


def service(room: Room, sessions: int, workers: int, *more: str) -> Service:
    words = ["x.verifier", "circuit", room.outputs, "--sessions", str(sessions), "--workers", str(workers), "--timeout", str(PATIENCE)]
    return Service(room.program, room.folder, [*words, *more])


def prover(room: Room, place: str, holder: str = "p0", patience: int = PATIENCE) -> Process:
    words = ["prove", place, holder, "circuit", "11", room.outputs, "--timeout", str(patience)]
    return Process(room.program, room.folder, words)


def silent_provers(room: Room) -> None:
    served = service(room, 6, 4)
    silent = [socket.create_connection(served.address) for _ in range(4)]
    honest = [prover(room, served.place(), holder, 10 * PATIENCE) for holder in room.holders[:2]]
    lines = sorted(each.end() for each in honest)
    assert lines == [Ran("units 0..1 accepted\n", 0), Ran("units 1..2 accepted\n", 0)], lines
    ran = served.end()
    assert ran == Ran("units 0..1 accepted\nunits 1..2 accepted\n" + 4 * "no grant link\n", 4), ran
    for each in silent:
        each.close()


def slow_prover(room: Room) -> None:
    served = service(room, 1, 1)
    hello = room.job.hello()
    with socket.create_connection(served.address) as stream:
        began = time.monotonic()
        for at in range(HELLO_BYTES):
            if served.is_over():
                break
            try:
                stream.sendall(hello[at : at + 1])
            except OSError:
                break
            time.sleep(0.4)
        took = time.monotonic() - began
    assert served.end() == Ran("no grant link\n", 4) and took < PATIENCE + SLACK, took


def quiet_prover(room: Room) -> None:
    served = service(room, 1, 1)
    with socket.create_connection(served.address) as stream:
        stream.sendall(room.job.hello())
        began = time.monotonic()
        ran = served.end()
        took = time.monotonic() - began
    assert ran == Ran("units 0..1 broken link\n", 4) and PATIENCE * 0.9 < took < PATIENCE + SLACK, (ran, took)


def silent_verifier(room: Room) -> None:
    with socket.socket() as listener:
        listener.bind(("127.0.0.1", 0))
        listener.listen()
        began = time.monotonic()
        ran = prover(room, "%s:%d" % listener.getsockname()).end()
        took = time.monotonic() - began
    assert ran == Ran("failed link\n", 4) and took < PATIENCE + SLACK, (ran, took)


def locked_verifier(room: Room) -> None:
    taken = Ran("journal failed 1\n", 5)
    served = service(room, 1, 1)
    second = room.run("serve", "127.0.0.1:0", "x.verifier", "circuit", room.outputs, "--sessions", "1")
    room.put("statements", b"circuit none 1\n")
    many = room.run("serve-many", "127.0.0.1:0", "x.verifier", "statements", "--sessions", "1")
    moved = room.run("migrate", "verifier", "x.verifier")
    assert second == many == moved == taken, (second, many, moved)
    assert prover(room, served.place()).end() == served.end() == Ran("units 0..1 accepted\n", 0)


def locked_prover(room: Room) -> None:
    taken = Ran("journal failed 1\n", 5)
    with socket.socket() as listener:
        listener.bind(("127.0.0.1", 0))
        listener.listen()
        place = "%s:%d" % listener.getsockname()
        first = prover(room, place)
        peer, _ = listener.accept()  # so the first has its journal
        second, moved = prover(room, place).end(), room.run("migrate", "prover", "p0")
        peer.close()
        assert second == moved == taken, (second, moved)
        first.end()


def dealt_anew(room: Room) -> None:
    served = service(room, 1, 1)
    old = {name: room.get(name) for name in ("x.prover", "x.verifier")}
    ran = room.run("deal", "x", "--units", "3")
    assert ran.status == 0 and room.get("x.verifier") != old["x.verifier"], ran
    assert prover(room, served.place()).end() == served.end() == Ran("units 0..1 accepted\n", 0)
    assert room.get("x.verifier.journal")[32:64] == room.get("x.verifier")[32:64]
    late = room.run("prove", served.place(), "p0", "circuit", "11", room.outputs)
    assert late == Ran("failed door\n", 4), late


def own_files(room: Room) -> None:
    ids = {room.run("deal", "y", "--units", "2").text.splitlines()[0] for _ in range(3)}
    assert len(ids) == 3, ids
    served = Service(room.program, room.folder, ["y.verifier", "circuit", room.outputs, "--sessions", "1", "--logs", "kept"])
    assert Process(room.program, room.folder, ["prove", served.place(), "y.prover", "circuit", "11", room.outputs]).end().status == 0
    assert served.end().status == 0
    names = [f"y.{side}{ending}" for side in ("prover", "verifier") for ending in ("", ".journal")] + ["kept.0"]
    modes = {name: (room.folder / name).stat().st_mode & 0o777 for name in names}
    assert set(modes.values()) == {0o600}, modes
    assert not list(room.folder.glob("*.unfinished"))


def followed(room: Room, sessions: int, *more: str) -> "subprocess.Popen[str]":
    words = ["serve", "127.0.0.1:0", "x.verifier", "circuit", room.outputs, "--sessions", str(sessions), "--follow", *more]
    pipe = subprocess.PIPE
    process = subprocess.Popen([*room.program, *words], cwd=room.folder, stdout=pipe, stderr=pipe, text=True)
    STARTED.append(process)
    return process


def place_of(process: "subprocess.Popen[str]") -> str:
    """Where a service that is followed says that it listens: the port is the one that the system chose."""
    word, place = process.stderr.readline().split()
    assert word == "listening" and not place.endswith(":0"), place
    return place


def rest_of(process: "subprocess.Popen[str]") -> Tuple[str, str]:
    """What it still writes to its output and to who follows it, up to its end: also what was read ahead of a line."""
    rest = process.stdout.read(), process.stderr.read()
    process.wait()
    return rest


def kept_evidence(room: Room) -> None:
    process = followed(room, 2, "--logs", "kept")
    place = place_of(process)
    assert process.stderr.readline() == f"left {room.total} sessions {room.total}\n"
    first = prover(room, place).end()
    assert first == Ran("units 0..1 accepted\n", 0), first
    assert process.stderr.readline() == "units 0..1 accepted\n"
    process.kill()  # with a session still to come: no line is on the output
    assert rest_of(process) == ("", "")
    found = room.run("audit", "circuit", room.outputs, "p0", "x.verifier", "kept.0")
    assert found == Ran("inputs 11\n", 0), found


def followed_to_the_end(room: Room) -> None:
    process = followed(room, 2, "--workers", "1")
    place = place_of(process)
    for holder in room.holders[:2]:
        assert prover(room, place, holder).end().status == 0
    lines = "units 0..1 accepted\nunits 1..2 accepted\n"
    found = rest_of(process)
    assert found == (lines, f"left {room.total} sessions {room.total}\n" + lines), found


def status_of_files(room: Room) -> None:
    served = service(room, 1, 1)
    assert room.run("status", "x.verifier") == Ran("journal failed 1\n", 5)  # the service has its journal
    assert prover(room, served.place()).end() == served.end() == Ran("units 0..1 accepted\n", 0)
    before = room.get("x.verifier.journal")
    first, second = (room.run("status", name, "circuit").text.splitlines() for name in ("x.verifier", "p0"))
    assert first[0] == second[0] == "id " + room.get("x.verifier")[32:64].hex()
    assert first[1:] == [f"units {room.total} direct", f"used 16 left {room.total - 16}", f"sessions {room.total - 16}"], first
    assert second[2:] == [f"used 1 left {room.total - 1}", f"sessions at most {room.total - 1}"], second
    assert room.get("x.verifier.journal") == before


def bits_in_files(room: Room) -> None:
    room.put("bits", b"11\n")
    served = service(room, 1, 1)
    words = ["prove", served.place(), "p0", "circuit", "@bits", room.outputs]
    assert Process(room.program, room.folder, words).end() == served.end() == Ran("units 0..1 accepted\n", 0)


CHECKS: List[Callable[[Room], None]] = [
    silent_provers,
    slow_prover,
    quiet_prover,
    silent_verifier,
    locked_verifier,
    locked_prover,
    dealt_anew,
    own_files,
    kept_evidence,
    followed_to_the_end,
    status_of_files,
    bits_in_files,
]


def main() -> int:
    program = str(pathlib.Path(sys.argv[1]).resolve())
    with tempfile.TemporaryDirectory() as name:
        try:
            for place, check in enumerate(CHECKS):
                check(Room(program, pathlib.Path(name) / f"room{place}", AND, 64, 2))
        finally:
            end_all()
    print(f"{len(CHECKS)} kinds of runs: silent peers are given up, no journal is shared, and logs are kept as sessions end")
    return 0


if __name__ == "__main__":
    sys.exit(main())
