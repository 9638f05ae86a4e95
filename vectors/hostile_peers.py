#!/usr/bin/env python3
"""Peers that break the protocol, and damaged files, row by row against the built program.

`python3 vectors/hostile_peers.py PROGRAM` runs `serve` and `prove` with peers of a script over connections of this machine, and
`serve-arith` and `prove-arith`. Of each row the line and the status stand here; what `ends.py` computes apart must be the same, and so
must the bytes that the program sends, its logs and what its journals say. Sessions are about one AND gate, over direct files, in one
section, with units from 0, where a row says nothing else. The rows are:

  - provers: another kind of frame, length, version and id in the hello; Sums, and a second hello, in place of Corrections; each
    place at which an element may be p; a bit byte of 2 over extended files; a byte, and a whole session, after the Openings; an
    end inside Corrections, at once and in single bytes; a whole session in single bytes, and one over extended files;
  - verifiers: a second Grant and a Refuse in place of the Challenge; a Grant of two units, of none, of sections of none and of too
    many products, at the file's total, and of a finished run again; a Refuse and a Verdict of wrong codes; a Challenge of p;
  - dealt files of either side that are cut by a byte, emptied, or have another last byte, in `prove`, `serve` and `audit`;
  - provers of an arithmetic circuit: hellos about a Boolean one of both lengths, and of other versions and lengths; each place at which
    an element may be p; Corrections and Openings of other numbers; an end, and silence, at the hello and behind the grant; and all
    verifiers of above, and one that rejects an assertion, at `prove-arith`;
  - provers that know the challenge, or are told the key, and claim what is not so: they are accepted, and an audit says the line that
    `docs/PROTOCOL.md` publishes; ones that miss by 1;
  - the sessions there from unit 1 on, of public bits, and of an assertion that is not met;
  - calls of the outside that fail: the send of a Refuse, of the Challenge and of the Verdict.

A hello about another circuit and an end after the hello are rows of `loopback.py`. What `serve` says where its journal or its
output fails, and each cut and changed byte of what a verifier sends, are in `endings.py`, which `two_parties.py` runs.

It prints how many rows there were, and ends with 0 only where all held.
"""
import os
import pathlib
import signal
import socket
import struct
import sys
import tempfile
import threading
from typing import Callable, List, NamedTuple, Tuple

import arithmetic
import bristol
import program
from common import P, frame
from dealt_files import journal
from endings import AND, Other, run_prove, serve_script
from ends import Link, hold, prove, verify
from parties import DIRECT, GRANT_BYTES, HELLO_BYTES, TINY, ElementsSubject, Room, Span, Subject
from processes import SECONDS, Ran, Service, end_all
from published import CHEATING, FOUR_GATES, LED, Led, answer_of
from told import Told

P_BYTES = struct.pack("<Q", P)

# Where the prover's last frames begin in what it sends.
SUMS, OPENINGS = 131, 152
CHALLENGE_BYTES = 13

# The same about the arithmetic circuit.
ARITH_SUMS, ARITH_OPENINGS = 123, 144

ACCEPTED = "units 0..1 accepted\n"


def renew(room: Room) -> None:
    """New journals for the files of a room."""
    room.put("x.verifier.journal", journal(1, room.total))
    for holder in room.holders:
        room.put(f"{holder}.journal", journal(0, room.total))


# ---- provers of a script


class Heard(NamedTuple):
    """What a prover sends, in pieces of so many bytes, and the line and the status of `serve`."""

    what: str
    sent: bytes
    line: str
    status: int
    piece: int = 4096


def talk(address: Tuple[str, int], sent: bytes, piece: int) -> bytes:
    """Sends these bytes, ends its side, and takes all that comes."""
    with socket.create_connection(address, timeout=SECONDS) as stream:
        stream.setsockopt(socket.IPPROTO_TCP, socket.TCP_NODELAY, 1)
        for at in range(0, len(sent), piece):
            stream.sendall(sent[at : at + piece])
        stream.shutdown(socket.SHUT_WR)
        came = b""
        while more := stream.recv(65536):
            came += more
        return came


def check_heard(room: Room, row: Heard) -> None:
    renew(room)
    outcome, end = verify(room.job, Link(row.sent, row.piece))
    service = room.service(1, 1)
    came = talk(service.address, row.sent, row.piece)
    served = service.end()
    assert served == (row.line, row.status), (row, served)
    assert (program.note_line(outcome, end), program.status_of(outcome)) == (row.line, row.status), (row, outcome)
    assert came == end.sent(), (row, came.hex())
    assert room.ceiling() == (0 if end.units == "none" else room.ceiling_over(1)), row
    if end.units != "none" and row.piece > 1:
        assert room.get("log.0") == b"".join(data for _, data in end.log), row


def with_p(sent: bytes, place: int) -> bytes:
    """The number p in place of the element whose last byte stands here."""
    return sent[: place - 7] + P_BYTES + sent[place + 1 :]


def direct_rows(honest: bytes) -> List[Heard]:
    hello, rest, sums = honest[:HELLO_BYTES], honest[HELLO_BYTES:], honest[SUMS:OPENINGS]
    rows = [
        Heard("kind 2 for the hello", b"\2" + honest[1:], "no grant frame 0\n", 1),
        Heard("a hello of length 98", hello[:1] + b"\x62" + hello[2:], "no grant frame 1\n", 1),
        Heard("a hello of length 97 + 256", hello[:2] + b"\1" + hello[3:], "no grant frame 2\n", 1),
        Heard("a hello of 97 bytes with version 2", hello[:-1] + b"\2", "no grant hello version\n", 1),
        Heard("a hello of 129 bytes with version 1", frame(1, hello[5:] + bytes(32)), "no grant hello version\n", 1),
        Heard("a hello of an arithmetic circuit", hello[:-1] + b"\4", "no grant hello version\n", 1),
        Heard("a hello about another file", hello[:5] + bytes(32) + hello[37:], "no grant hello id\n", 1),
        Heard("Sums for Corrections", hello + sums, "units 0..1 broken frame 102\n", 1),
        Heard("a second hello", hello + hello, "units 0..1 broken frame 102\n", 1),
        Heard("an end in the second correction", honest[:118], "units 0..1 broken ended 118\n", 1),
        Heard("the same in single bytes", honest[:118], "units 0..1 broken ended 118\n", 1, 1),
        Heard("no byte", b"", "no grant ended 0\n", 1),
        Heard("a byte after the Openings", hello + rest + b"\0", ACCEPTED, 0),
        Heard("whole sessions after it", 2 * honest, ACCEPTED, 0),
        Heard("a session in single bytes", honest, ACCEPTED, 0, 1),
    ]
    corrections = [("a correction", place) for place in (114, 122, 130)]
    for what, place in [*corrections, ("U", 143), ("V", 151), ("an opening", 164)]:
        rows.append(Heard(f"{what} of p", with_p(honest, place), f"units 0..1 broken frame {place}\n", 1))
    return rows


def extended_rows(honest: bytes) -> List[Heard]:
    asked = honest[:107] + b"\2" + honest[108:]
    return [
        Heard("a bit byte of 2", asked, "units 0..2 broken frame 107\n", 1),
        Heard("a session over extended files", honest, "units 0..2 accepted\n", 0),
    ]


def arith_rows(honest: bytes, bits_hello: bytes) -> List[Heard]:
    hello, rest, openings = honest[:HELLO_BYTES], honest[HELLO_BYTES:], honest[ARITH_OPENINGS:]
    before, corrections = honest[:ARITH_OPENINGS], honest[HELLO_BYTES:ARITH_SUMS]
    rows = [
        Heard("a session", honest, ACCEPTED, 0),
        Heard("a session in single bytes", honest, ACCEPTED, 0, 1),
        Heard("a hello about a Boolean circuit", bits_hello, "no grant hello version\n", 1),
        Heard("its long form", frame(1, bits_hello[5:-1] + b"\2" + bytes(32)), "no grant frame 1\n", 1),
        Heard("the long form of version 4", frame(1, hello[5:] + bytes(32)), "no grant frame 1\n", 1),
        Heard("a hello of version 3", hello[:-1] + b"\3" + rest, "no grant hello version\n", 1),
        Heard("a hello of length 96", hello[:1] + b"\x60" + hello[2:], "no grant frame 1\n", 1),
        Heard("no byte", b"", "no grant ended 0\n", 1),
        Heard("an end in the second correction", honest[:118], "units 0..1 broken ended 118\n", 1),
        Heard("a correction for the product alone", hello + frame(5, corrections[-8:]), "units 0..1 broken frame 103\n", 1),
        Heard("a third correction", hello + frame(5, corrections[5:] + bytes(8)), "units 0..1 broken frame 103\n", 1),
        Heard("an opening of the output alone", before + frame(8, openings[5:13]), "units 0..1 broken frame 145\n", 1),
        Heard("a third opening", before + frame(8, openings[5:] + bytes(8)), "units 0..1 broken frame 145\n", 1),
        Heard("an opening that is not the assertion's", honest[:-8] + bytes(8), "units 0..1 rejected opening 1\n", 1),
    ]
    given = [("the input's correction", 114), ("the product's", 122)]
    for what, place in [*given, ("U", 135), ("V", 143), ("the output's opening", 156), ("the assertion's", 164)]:
        rows.append(Heard(f"{what} of p", with_p(honest, place), f"units 0..1 broken frame {place}\n", 1))
    return rows


def silent_provers(room: Room, honest: bytes) -> int:
    """Provers that send so much and then nothing, in a service that waits a second."""
    rows = [(0, "no grant link\n"), (60, "no grant link\n"), (HELLO_BYTES, "units 0..1 broken link\n"), (ARITH_SUMS, "units 0..1 broken link\n")]
    for count, line in rows:
        renew(room)
        service = room.service(1, 1, "--timeout", "1")
        with socket.create_connection(service.address, timeout=SECONDS) as stream:
            stream.sendall(honest[:count])
            served = service.end()
        assert served == (line, 4), (count, served)
    return len(rows)


# ---- verifiers of a script


class Shown(NamedTuple):
    """What a verifier sends, and the line and the status of `prove`, and its claims."""

    what: str
    sent: bytes
    line: str
    status: int
    claims: List[Span]


def prove_to(room: Room, script: bytes) -> Tuple[Ran, bytes]:
    """What a prover says to a verifier that sends these bytes, and what it sends."""
    came: List[bytes] = []
    with socket.create_server(("127.0.0.1", 0)) as listener:
        listener.settimeout(SECONDS)
        server = threading.Thread(target=serve_script, args=(listener, script, came))
        server.start()
        ran = room.proving("%s:%d" % listener.getsockname(), "p0").end()
        server.join()
    return ran, b"".join(came)


def check_shown(room: Room, row: Shown, refusal: str = "") -> None:
    """Where a refusal is named, the claim is refused so."""
    outcome, end = prove(room.job, Link(row.sent), refusal or None)
    ran, sent = prove_to(room, row.sent)
    assert ran == (row.line, row.status), (row, ran)
    assert program.proved_line(outcome, end.units, 0) == (row.line, row.status), (row, outcome)
    assert sent == end.sent(), (row, sent.hex())
    assert room.claims("p0") == row.claims, (row, room.claims("p0"))


def verifier_rows(room: Room, honest: bytes) -> List[Shown]:
    grant, rest = honest[:GRANT_BYTES], honest[GRANT_BYTES:]
    challenge = rest[:CHALLENGE_BYTES]

    def granting(start: int, count: int, section: int) -> bytes:
        return frame(2, struct.pack("<QII", start, count, section)) + rest

    total = room.total
    claimed = [(0, 1)]
    return [
        Shown("a second Grant for the Challenge", grant + grant, "peer frame 21\n", 8, claimed),
        Shown("a Grant of two units", granting(0, 2, 2**20), "peer grant\n", 8, []),
        Shown("a Grant of none", granting(0, 0, 2**20), "peer grant\n", 8, []),
        Shown("sections of none", granting(0, 1, 0), "peer grant\n", 8, []),
        Shown("sections above 2^20", granting(0, 1, 2**20 + 1), "peer grant\n", 8, []),
        Shown("a Grant at the total", granting(total, 1, 2**20), f"peer range {total}\n", 8, []),
        Shown("a Grant whose end passes 2^64", granting(2**64 - 1, 1, 2**20), f"peer range {total}\n", 8, []),
        Shown("a Refuse of code 5", frame(10, b"\5"), "peer frame 5\n", 8, []),
        Shown("a Refuse of code 0", frame(10, b"\0"), "peer frame 5\n", 8, []),
        Shown("a Challenge of p", grant + frame(6, P_BYTES), "peer frame 33\n", 8, claimed),
        Shown("a Verdict of code 3", grant + challenge + frame(9, b"\3" + bytes(4)), "peer frame 39\n", 8, claimed),
        Shown("a Refuse for the Challenge", grant + frame(10, b"\1"), "peer frame 21\n", 8, claimed),
    ]


def check_again(room: Room, honest: bytes) -> None:
    """The bytes of a finished run come again: units that were claimed are not used."""
    renew(room)
    check_shown(room, Shown("an honest verifier", honest, ACCEPTED, 0, [(0, 1)]))
    again = Shown("the same Grant again", honest, "peer overlap 0..1\n", 8, [(0, 1)])
    check_shown(room, again, "overlap earlier=0..1")


# ---- damaged files


def damaged_files(room: Room) -> int:
    """Dealt files that are cut, emptied or changed, in each command that reads them."""
    count = 0
    for name in ("x.prover", "x.verifier"):
        data = room.get(name)
        size = len(data)
        rows = [
            (data[:-1], f"refused Length 4 {size} {size - 1}\n"),
            (b"", "refused BadMagic 1\n"),
            (data[:-1] + bytes([data[-1] ^ 1]), "refused BadDigest 7\n"),
        ]
        for damaged, line in rows:
            room.put("damaged", damaged)
            files = ["damaged", "x.verifier"] if name == "x.prover" else ["x.prover", "damaged"]
            ran = [room.run("audit", "circuit", "1", *files, "circuit")]
            if name == "x.prover":
                ran.append(run_prove(room, "nowhere", Other("damaged")))
            else:
                ran.append(room.run("serve", "nowhere", "damaged", "circuit", "1", "--sessions", "1"))
            assert ran == [(line, 3)] * 2, (name, line, ran)
            count += 2
    return count


# ---- provers that know the challenge, or are told the key


def audited(room: Room, log: bytes) -> Tuple[Ran, Ran]:
    """What an audit of the log of unit 0, which is this one, says over the room's files, and what is computed apart."""
    names = ["circuit", "x.prover", "x.verifier", "log.0", *room.subject.files()]
    files = {name: room.get(name) for name in names}
    assert files["log.0"] == log, files["log.0"].hex()
    words = [room.subject.command("audit"), "circuit", room.outputs, "x.prover", "x.verifier", "log.0", *room.subject.words()]
    outside = program.Outside(files, program.Disk(b"", 0))
    came = program.run(outside, words, [])
    return room.run(*words), Ran(outside.written.decode(), came.status)


def check_told(room: Room, told: Told, line: str, status: int, found: Ran) -> None:
    """A service says this of such a prover, and an audit finds this in the log."""
    renew(room)
    service = room.service(1, 1)
    talk(service.address, told.sent(), 4096)
    served = service.end()
    assert served == (line, status), (told, served)
    both = audited(room, told.log())
    assert both == (found, found), (told, both)


def told_provers(room: Room, arith: Room) -> int:
    """Those that are published, and the same with a sum that is 1 too high."""
    arith.put("outputs", b"1\n")
    for name, told in CHEATING:
        place = room if name.startswith("AND") else arith
        check_told(place, told, ACCEPTED, 0, Ran(f"{answer_of(told, told.log())}\n", 1))
        check_told(place, told._replace(spoilt=1), "units 0..1 rejected sum 0\n", 1, Ran("not accepted\n", 1))
    return 2 * len(CHEATING)


# ---- sessions that are published


def check_led(path: str, folder: pathlib.Path, led: Led) -> None:
    """A service has the log of such a session, behind another one where its grant does not start at unit 0."""
    given, count = led.given, 1 + led.start
    if isinstance(given.claim().circuit, arithmetic.Circuit):
        room = Room(path, folder, ElementsSubject(given.name, given.text, [3]), count, 0)
        room.put("outputs", f"{given.claim().outputs()[0]}\n".encode())
    else:
        params = given.params
        kind = DIRECT if params is None else DIRECT._replace(kind=1, height=params.height, trees=params.trees, base=params.base)
        bits = bristol.word_of(given.inputs)
        room = Room(path, folder, Subject(given.name, given.text, bits, kind, given.section, given.public), count, 0)
    service = room.service(count, 1)
    for start in range(count):
        talk(service.address, hold(given.job(total=count), start)[0], 4096)
    said = "rejected opening 1" if led.outcome.startswith("rejected-opening output=1 ") else led.outcome
    lines = "".join(f"units {start}..{start + 1} {said}\n" for start in range(count))
    served = service.end()
    assert served == (lines, 0 if led.outcome == "accepted" else 1), (given.name, served)
    assert room.get(f"log.{led.start}") == led.log(), given.name


# ---- calls of the outside that fail


def reset(stream: socket.socket) -> None:
    """Closes a connection by a reset."""
    stream.setsockopt(socket.SOL_SOCKET, socket.SO_LINGER, struct.pack("ii", 1, 0))
    stream.close()


def while_stopped(service: Service, stream: socket.socket, sent: bytes) -> None:
    """Sends these bytes and resets the connection while the service does nothing, so that it reads them and then can't answer."""
    os.kill(service.process.pid, signal.SIGSTOP)
    os.waitid(os.P_PID, service.process.pid, os.WSTOPPED)
    stream.sendall(sent)
    reset(stream)
    os.kill(service.process.pid, signal.SIGCONT)


def unsent(room: Room, sent: List[bytes], came: List[int], line: str, status: int) -> None:
    """The prover sends these, takes so many bytes after each but the last, and is gone when the last is answered."""
    renew(room)
    service = room.service(1, 1)
    with socket.create_connection(service.address, timeout=SECONDS) as stream:
        for data, count in zip(sent, came):
            stream.sendall(data)
            assert len(stream.recv(count, socket.MSG_WAITALL)) == count
        while_stopped(service, stream, sent[-1])
    served = service.end()
    assert served == (line, status), (line, served)


def failing_calls(room: Room) -> int:
    honest = hold(room.job)[0]
    hello, wrong = honest[:HELLO_BYTES], honest[:37] + bytes(32) + honest[69:HELLO_BYTES]
    rows: List[Callable[[], None]] = [
        lambda: unsent(room, [wrong[:50], wrong[50:]], [0], "no grant hello statement\n", 1),
        lambda: unsent(room, [hello, honest[HELLO_BYTES:SUMS]], [GRANT_BYTES], "units 0..1 broken link\n", 4),
        lambda: unsent(
            room,
            [hello, honest[HELLO_BYTES:SUMS], honest[SUMS:]],
            [GRANT_BYTES, CHALLENGE_BYTES],
            "units 0..1 broken link\n",
            4,
        ),
    ]
    for row in rows:
        row()
    return len(rows)


def check_rows(path: str, folder: pathlib.Path) -> int:
    """All rows; gives how many there are."""
    room = Room(path, folder / "direct", AND, 1, 1)
    wide = Room(path, folder / "extended", AND._replace(kind=TINY), 2, 1)
    arith = Room(path, folder / "arithmetic", ElementsSubject("four gates", FOUR_GATES, [3]), 1, 1)
    (by_prover, by_verifier), (from_prover, from_verifier) = hold(room.job), hold(arith.job)
    heard = [(room, row) for row in direct_rows(by_prover)] + [(wide, row) for row in extended_rows(hold(wide.job)[0])]
    heard += [(arith, row) for row in arith_rows(from_prover, by_prover[:HELLO_BYTES])]
    for place, row in heard:
        check_heard(place, row)
    rejects = from_verifier[:-10] + frame(9, struct.pack("<BI", 2, 1))
    shown = [(room, row) for row in verifier_rows(room, by_verifier)] + [(arith, row) for row in verifier_rows(arith, from_verifier)]
    shown.append((arith, Shown("a Verdict against the assertion", rejects, "units 0..1 rejected opening 1\n", 1, [(0, 1)])))
    for place, each in shown:
        renew(place)
        check_shown(place, each)
    for place, sent in ((room, by_verifier), (arith, from_verifier)):
        check_again(place, sent)
    for led in LED:
        check_led(path, folder / led.given.name, led)
    count = len(heard) + len(shown) + 2 + len(LED) + silent_provers(arith, from_prover)
    return count + damaged_files(room) + told_provers(room, arith) + failing_calls(room)


def main() -> int:
    path = str(pathlib.Path(sys.argv[1]).resolve())
    with tempfile.TemporaryDirectory() as name:
        try:
            count = check_rows(path, pathlib.Path(name))
        finally:
            end_all()
    print(f"{count} rows of hostile peers, damaged files and failing calls: each line and status as it must be")
    return 0


if __name__ == "__main__":
    sys.exit(main())
