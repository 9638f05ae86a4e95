"""Sessions of `serve` and `prove` that are not simply accepted, and what each side says of them."""
import pathlib
import socket
import struct
import threading
from typing import Callable, List, NamedTuple, Sequence, Tuple

import bristol
from common import P, sha256
from dealt_files import journal, one_area
from ends import Link, hold, prove
from parties import HELLO_BYTES, SMALL, TINY, Room, Span, Subject, slots_of
from processes import SECONDS, Ran, Service, free_address, without_output, without_writes
from published import ADDER, AND_GATE

AND = Subject("and", AND_GATE, "11")
SUM = Subject("adder", ADDER, "10" * 64)


class Said(NamedTuple):
    """What the service says, and what each prover says that calls after the one before has ended."""

    served: Tuple[str, int]
    proved: List[Tuple[str, int]]


class Other(NamedTuple):
    """A prover's words where they are not the room's."""

    holder: str = "p0"
    circuit: str = "circuit"
    bits: str = ""
    outputs: str = ""
    lacking: Callable[[Sequence[str]], List[str]] = list


def run_prove(room: Room, place: str, other: Other) -> Ran:
    """A prover in a room, with other words."""
    outputs = other.outputs or room.outputs
    words = ["prove", place, other.holder, other.circuit, other.bits or room.subject.bits, outputs]
    return room.run_by(other.lacking(room.program), *words)


def meet(room: Room, others: List[Other], said: Said, workers: int = 1) -> None:
    """One service and these provers, one after the other: what they say is as it must be."""
    service = room.service(len(others), workers)
    proved = [run_prove(room, service.place(), other) for other in others]
    served = service.end()
    assert proved == said.proved, (room.folder, proved, served)
    assert served == said.served, (room.folder, served)


def begin(room: Room, other: Other, text: str, status: int) -> None:
    """A prover that ends before there is a connection; nobody listens."""
    ran = run_prove(room, "%s:%d" % free_address(), other)
    assert ran == (text, status), (room.folder, other, ran)


ACCEPTED = ("units 0..1 accepted\n", 0)
LEFT = ("units 0..1 broken ended 102\n", 1)


# ---- units that are granted and claimed


def exhausted(room: Room) -> None:
    said = Said((ACCEPTED[0] + "no grant exhausted 1 1 1\n", 6), [ACCEPTED, ("peer refused 2\n", 8)])
    meet(room, [Other("p0"), Other("p1")], said)


def exhausted_again(room: Room) -> None:
    """A worker that was refused is refused by the same words again."""
    first, refused = "units 0..7 accepted\n", "no grant exhausted 7 7 10\n"
    refusals = [("peer refused 2\n", 8)] * 2
    meet(room, [Other("p0")] * 3, Said((first + 2 * refused, 6), [(first, 0), *refusals]))


def exhausted_at_once(room: Room) -> None:
    """Two of four provers that call at the same time find units; a worker that was refused draws no more."""
    for workers in (1, 2, 4, 8):
        room.put("x.verifier.journal", journal(1, room.total))
        for holder in room.holders:
            room.put(f"{holder}.journal", journal(0, room.total))
        service = room.service(4, workers)
        provers = [room.proving(service.place(), holder) for holder in room.holders]
        ran, served = sorted(prover.end() for prover in provers), service.end()
        accepted = [f"units {start}..{start + 7} accepted\n" for start in (0, 7)]
        assert ran == [("peer refused 2\n", 8)] * 2 + [(line, 0) for line in accepted], ran
        refused = [f"no grant exhausted {at} 7 20\n" for at in (14, 14 if workers == 1 else 21)]
        either = ["".join(accepted) + refused[0] + line for line in (refused[0], refused[1])]
        assert served.text in either and served.status == 6, served


def overlap(room: Room) -> None:
    """The verifier's journal is put back to an earlier copy."""
    copy = room.get("x.verifier.journal")
    second = ("units 1..2 accepted\n", 0)
    meet(room, [Other()] * 2, Said((ACCEPTED[0] + second[0], 0), [ACCEPTED, second]))
    claims = room.get("p0.journal")
    room.put("x.verifier.journal", copy)
    left = (LEFT[0] + "units 1..2 broken ended 102\n", 1)
    meet(room, [Other()] * 2, Said(left, [("peer overlap 0..2\n", 8)] * 2))
    assert room.get("p0.journal") == claims and room.ceiling() == 16
    meet(room, [Other()], Said(("units 16..17 accepted\n", 0), [("units 16..17 accepted\n", 0)]))


def overlap_in_part(room: Room) -> None:
    """Of the claims that have a unit of the grant the one that starts first is named, in whatever order they stand."""
    room.put("p0.journal", with_slots(room.get("p0.journal"), [(9, 12), (5, 6), (0, 2)]))
    meet(room, [Other()], Said(("units 0..7 broken ended 102\n", 1), [("peer overlap 0..2\n", 8)]))


def torn(room: Room) -> None:
    """A claim whose gate was not written is none; its slot is used again."""
    claimed = with_slots(room.get("p0.journal"), [(0, 1)])
    room.put("p0.journal", claimed[:127] + b"\0" + claimed[128:])
    meet(room, [Other()], Said(ACCEPTED, [ACCEPTED]))
    assert room.claims("p0") == [(0, 1)]


def full(room: Room) -> None:
    """A journal of one slot, with a claim: what touches this is one with it, and no other claim has room."""
    room.put("p0.journal", with_slots(journal(0, room.total, 1), [(2, 3)]))
    second = ("units 1..2 accepted\n", 0)
    meet(room, [Other()] * 2, Said((LEFT[0] + second[0], 1), [("journal full 1\n", 5), second]))
    assert slots_of(room.get("p0.journal")) == [(1, 3)]


def shorter(room: Room) -> None:
    """The prover's file has one unit of the two that the verifier's has."""
    short = Room(room.program[0], room.folder / "short", AND, 1, 1)
    room.put("p0", short.get("p0"))
    room.put("p0.journal", short.get("p0.journal"))
    left = "units 1..2 broken ended 102\n"
    meet(room, [Other()] * 2, Said((ACCEPTED[0] + left, 1), [ACCEPTED, ("peer range 1\n", 8)]))


def lost_claim(room: Room) -> None:
    """A prover that can't write its journal claims nothing, and its journal starts again."""
    second = ("units 1..2 accepted\n", 0)
    said = Said((LEFT[0] + second[0], 1), [("journal failed 1\n", 5), second])
    meet(room, [Other(lacking=without_writes), Other()], said)


def lost_ceiling(room: Room) -> None:
    """A verifier that can't write its journal grants nothing, and its journal starts again."""
    program, room.program = room.program, without_writes(room.program)
    refusals = [("peer refused 3\n", 8)] * 2
    meet(room, [Other()] * 2, Said(("no grant device\nno grant journal 1\n", 5), refusals))
    room.program = program
    meet(room, [Other()], Said(ACCEPTED, [ACCEPTED]))


def lost_lines(room: Room) -> None:
    """A session whose line is not written was held; other statuses stay as they are."""
    begin(room, Other("none", outputs="0", lacking=without_output), "", 4)
    begin(room, Other("none", bits="1", lacking=without_output), "", 3)
    unsaid = Other(lacking=without_output)
    said = Said((ACCEPTED[0] + "no grant exhausted 1 1 1\n", 6), [("", 4), ("", 8)])
    meet(room, [unsaid, unsaid], said)
    assert room.claims("p0") == [(0, 1)]


def reset(room: Room) -> None:
    """The verifier resets the connection once the hello has come."""
    with socket.create_server(("127.0.0.1", 0)) as listener:
        listener.settimeout(SECONDS)
        prover = room.proving("%s:%d" % listener.getsockname(), "p0")
        with listener.accept()[0] as stream:
            stream.settimeout(SECONDS)
            assert stream.recv(HELLO_BYTES, socket.MSG_WAITALL) == room.job.hello()
            stream.setsockopt(socket.SOL_SOCKET, socket.SO_LINGER, struct.pack("ii", 1, 0))
        assert prover.end() == ("failed link\n", 4)
    assert room.claims("p0") == []


# ---- sides that are about other things


def other_outputs(room: Room) -> None:
    refused = Said(("no grant hello statement\n", 1), [("peer refused 1\n", 8)])
    meet(room, [Other(bits="01", outputs="0")], refused)


def other_circuit(room: Room) -> None:
    room.put("spaced", AND_GATE.replace(b" ", b"  "))
    meet(room, [Other(circuit="spaced")], Said(("no grant hello statement\n", 1), [("peer refused 1\n", 8)]))


def other_deal(room: Room) -> None:
    assert room.run("deal", "y", "--units", "1").status == 0
    meet(room, [Other("y.prover")], Said(("no grant hello id\n", 1), [("peer refused 1\n", 8)]))


def take_kind(room: Room, subject: Subject) -> None:
    """Gives the first holder the prover's file of another kind from the same seed."""
    other = Room(room.program[0], room.folder / "other", subject, room.total, 1)
    room.put("p0", other.get("p0"))


def other_count(room: Room) -> None:
    take_kind(room, SUM)
    meet(room, [Other()], Said(("units 0..4 broken ended 102\n", 1), [("peer grant\n", 8)]))


def other_frames(room: Room) -> None:
    """Both kinds take one unit, and then wait for other frames."""
    take_kind(room, AND._replace(kind=SMALL) if room.subject.kind.kind == 0 else AND)
    meet(room, [Other()], Said(("units 0..1 broken frame 102\n", 1), [("peer ended 21\n", 8)]))


def wrong_mac(room: Room) -> None:
    """The second product's MAC in the prover's file is 1 higher than what was dealt."""
    data = room.get("p0")[:-32]
    (mac,) = struct.unpack("<Q", data[152:160])
    data = data[:152] + struct.pack("<Q", (mac + 1) % P) + data[160:]
    room.put("p0", data + sha256(data))
    rejected = ("units 0..1 rejected sum 1\n", 1)
    meet(room, [Other()], Said(rejected, [rejected]))


# ---- provers that do not connect


def with_slots(new: bytes, spans: List[Span]) -> bytes:
    """A new journal with these slots of its first area open."""
    slots = b"".join(struct.pack("<QQ", start, end) + bytes(15) + b"\x5a" for start, end in spans)
    return new[:96] + slots + new[96 + len(slots) :]


def without_link(room: Room) -> None:
    """The first fault ends the run: of bits, outputs, their values, the prover's file, the door."""
    usage = (bristol.USAGE + "\n", 2)
    assert room.run("prove", "127.0.0.1:1", "p0", "circuit", "11") == usage
    assert room.run("prove", "127.0.0.1:1", "p0", "circuit", "12", "1") == usage
    begin(room, Other(circuit="none"), "failed shelf\n", 4)
    begin(room, Other("none", bits="1", outputs="11"), "refused bits 2 1\n", 3)
    begin(room, Other("none", outputs="01"), "refused outputs 1 2\n", 3)
    begin(room, Other("none", outputs="0"), "unsatisfied 0\n", 1)
    begin(room, Other("none"), "failed shelf\n", 4)
    begin(room, Other("x.verifier"), "refused BadKind 2\n", 3)
    begin(room, Other("circuit"), "refused BadMagic 1\n", 3)
    room.put("damaged", room.get("p0")[:-1] + bytes([room.get("p0")[-1] ^ 1]))
    begin(room, Other("damaged"), "refused BadDigest 7\n", 3)
    begin(room, Other(), "failed door\n", 4)
    ran = run_prove(room, "nowhere", Other())
    assert ran == ("failed door\n", 4), ran
    assert room.claims("p0") == []


def without_journal(room: Room) -> None:
    new = room.get("p0.journal")
    (room.folder / "p0.journal").unlink()
    begin(room, Other(), "journal failed 1\n", 5)
    rows = [
        (new[:63], "refused Short 1 64 63\n"),
        (new[:80], "refused Short 1 256 80\n"),
        (new[:-1], "refused Short 1 256 255\n"),
        (one_area(0, room.total), "refused BadHeader 2 8\n"),
        (room.get("x.verifier.journal"), "refused BadHeader 2 8\n"),
        (new[:40] + b"\0" + new[41:], "refused BadHeader 2 40\n"),
        (new[:24] + bytes(8) + new[32:], "refused BadHeader 2 24\n"),
        (new[:64] + b"\2" + new[65:], "refused BadHeader 2 64\n"),
        (new[:95] + b"\0" + new[96:], "refused BadHeader 2 95\n"),
        (with_slots(new, [(0, 3)]), "refused BadBody 3 0\n"),
        (with_slots(new, [(0, 1), (1, 1)]), "refused BadBody 3 1\n"),
        (with_slots(new, [(1, 2), (0, 2)]), "refused BadBody 3 1\n"),
    ]
    for data, line in rows:
        room.put("p0.journal", data)
        begin(room, Other(), line, 3)
    room.put("p0.journal", new)
    meet(room, [Other()], Said(ACCEPTED, [ACCEPTED]))


def far_difference(room: Room) -> None:
    """The first output that differs is named."""
    wrong = "".join("10"[int(bit)] if place in (3, 40) else bit for place, bit in enumerate(room.outputs))
    begin(room, Other(outputs=wrong), "unsatisfied 3\n", 1)


# ---- several statements, audits and help


def many_service(room: Room, text: str, sessions: int) -> Service:
    """A service of the statements of this text."""
    room.put("statements", text.encode())
    return Service(room.program, room.folder, ["x.verifier", "statements", "--sessions", str(sessions)], "serve-many")


def several_statements(room: Room) -> None:
    """Provers of each statement, and of none, one after the other."""
    service = many_service(room, "circuit none 1\ncircuit 1 1", 4)
    calls = [["11", "1"], ["1", "1", "--public", "1"], ["none", "1", "--public", "11"], ["11", "1"]]
    said = []
    for words in calls:
        said.append(room.run("prove", service.place(), "p0", "circuit", *words))
    accepted = [(f"units {start}..{start + 1} accepted\n", 0) for start in range(3)]
    assert said == [accepted[0], accepted[1], ("peer refused 1\n", 8), accepted[2]], said
    served = service.end()
    assert served == ("".join(line for line, _ in accepted) + "no grant hello statement\n", 1), served


def bad_statements(room: Room) -> None:
    """Files of statements that are refused, and one whose statement is."""
    for text, line, status in [
        ("", "refused Count 2 0\n", 3),
        ("circuit none 1\n" * 257, "refused Count 2 257\n", 3),
        ("circuit none 1\ncircuit  1\n", "refused BadLine 1 1\n", 3),
        ("circuit none 1\ncircuit 111 1\n", "refused public 2 3\n", 3),
        ("missing none 1\n", "failed shelf\n", 4),
    ]:
        ran = many_service(room, text, 1).end()
        assert ran == (line, status), (text[:40], ran)


def wrong_audits(room: Room) -> None:
    """Audits of a stored log: as it is, of other outputs, cut, changed, and over files of another dealing."""
    meet(room, [Other()], Said(ACCEPTED, [ACCEPTED]))
    room.run("deal", "y", "--units", "2")
    log = room.get("log.0")
    room.put("cut", log[:-1])
    room.put("changed", log[:-1] + b"\1")
    for words, line, status in [
        (["1", "x.prover", "x.verifier", "log.0"], "inputs 11\n", 0),
        (["1", "x.prover", "x.verifier", "cut"], "not accepted\n", 1),
        (["1", "x.prover", "x.verifier", "changed"], f"refused LogFault 1 {len(log) - 1}\n", 3),
        (["0", "x.prover", "x.verifier", "log.0"], "refused LogFault 1 101\n", 3),
        (["1", "x.prover", "y.verifier", "log.0"], "refused NotDealt 8 0\n", 3),
        (["1", "y.prover", "y.verifier", "log.0"], "refused LogFault 1 101\n", 3),
        (["1", "x.prover", "x.verifier", "missing"], "failed shelf\n", 4),
    ]:
        ran = room.run("audit", "circuit", *words)
        assert ran == (line, status), (words, ran)


def helped(room: Room) -> None:
    """Help and the version, and an output that is full."""
    commands = ["deal", "eval", "rehearse", "serve", "serve-many", "prove", "audit", "migrate"]
    whole = room.run("--help")
    assert whole == room.run("-h") and whole.status == 0 and all(f"zk {name} " in whole.text for name in commands), whole
    for name in commands:
        ran = room.run(name, "--help")
        assert ran.status == 0 and ran.text.startswith(f"usage: zk {name} ") and "example: zk " in ran.text, ran
    assert room.run("--version") == room.run("-V") and room.run("--version").status == 0
    assert room.run("audits", "--help") == (bristol.USAGE + "\n", 2)
    assert room.run_by(without_output(room.program), "--help").status == 4


class Ending(NamedTuple):
    """A scenario in a room of its own: what its sessions are about, and how many units there are."""

    check: Callable[[Room], None]
    subject: Subject
    total: int


ENDINGS = [
    Ending(exhausted, AND, 1),
    Ending(exhausted_again, SUM, 10),
    Ending(exhausted_at_once, SUM, 20),
    Ending(overlap, AND, 17),
    Ending(overlap_in_part, SUM, 16),
    Ending(torn, AND, 2),
    Ending(full, AND, 3),
    Ending(shorter, AND, 2),
    Ending(lost_claim, AND, 2),
    Ending(lost_ceiling, AND, 2),
    Ending(lost_lines, AND, 1),
    Ending(reset, AND, 1),
    Ending(other_outputs, AND, 1),
    Ending(other_circuit, AND, 1),
    Ending(other_deal, AND, 1),
    Ending(other_count, SUM._replace(kind=SMALL), 7),
    Ending(other_frames, AND, 1),
    Ending(other_frames, AND._replace(kind=SMALL), 1),
    Ending(wrong_mac, AND._replace(section=1), 1),
    Ending(without_link, AND, 2),
    Ending(without_journal, AND, 2),
    Ending(far_difference, SUM, 7),
    Ending(several_statements, AND, 4),
    Ending(bad_statements, AND, 1),
    Ending(wrong_audits, AND, 2),
    Ending(helped, AND, 1),
]


# ---- verifiers that send other bytes


def serve_script(listener: socket.socket, script: bytes, came: List[bytes]) -> None:
    """Sends these bytes to who calls, ends its side, and takes all that comes."""
    stream = listener.accept()[0]
    with stream:
        stream.settimeout(SECONDS)
        stream.sendall(script)
        stream.shutdown(socket.SHUT_WR)
        while piece := stream.recv(65536):
            came.append(piece)


def line_of(outcome: str, units: str) -> Tuple[str, int]:
    """The line and the status of a prover's outcome."""
    name, *fields = outcome.split(" ")
    numbers = [field.split("=")[1] for field in fields]
    if name == "accepted":
        return f"units {units} accepted\n", 0
    if name == "rejected":
        return f"units {units} rejected {'sum' if numbers[0] == '1' else 'opening'} {numbers[1]}\n", 1
    words = {"peer-ended": "ended", "bad-frame": "frame", "bad-grant": "grant", "peer-refused": "refused"}
    return " ".join(["peer", words.get(name, "range"), *numbers]) + "\n", 8


def check_script(room: Room, script: bytes) -> None:
    """What the prover sends, says and claims where the verifier sends these bytes."""
    outcome, end = prove(room.job, Link(script))
    came: List[bytes] = []
    with socket.create_server(("127.0.0.1", 0)) as listener:
        listener.settimeout(SECONDS)
        server = threading.Thread(target=serve_script, args=(listener, script, came))
        server.start()
        ran = room.proving("%s:%d" % listener.getsockname(), "p0").end()
        server.join()
    assert ran == line_of(outcome, end.units), (script.hex(), ran, outcome)
    assert b"".join(came) == end.sent(), script.hex()
    claims = [tuple(map(int, end.units.split("..")))] if end.units != "none" else []
    assert room.claims("p0") == claims, (script.hex(), claims)


def scripts_of(room: Room) -> List[bytes]:
    """What an honest verifier sends, with a byte more, cut at each place, with each byte changed twice."""
    honest = hold(room.job)[1]
    scripts = [honest[:place] for place in range(len(honest))] + [honest, honest + b"\0"]
    for place, byte in enumerate(honest):
        scripts += [honest[:place] + bytes([byte ^ mask]) + honest[place + 1 :] for mask in (1, 128)]
    scripts += [honest[:-5] + struct.pack("<BI", code, 7) for code in (1, 2, 3)]
    return scripts + [bytes([10, 1, 0, 0, 0, code]) for code in range(6)]


def check_scripts(program: str, folder: pathlib.Path) -> int:
    count = 0
    for kind in (AND.kind, TINY):
        room = Room(program, folder / f"scripts{kind.kind}", AND._replace(kind=kind), 2, 1)
        new = room.get("p0.journal")
        for script in scripts_of(room):
            room.put("p0.journal", new)
            check_script(room, script)
            count += 1
    return count


def check_endings(program: str, folder: pathlib.Path) -> int:
    """All of these; gives how many there were."""
    for place, ending in enumerate(ENDINGS):
        ending.check(Room(program, folder / f"ending{place}", ending.subject, ending.total, 4))
    return len(ENDINGS) + check_scripts(program, folder)
