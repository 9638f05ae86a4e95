#!/usr/bin/env python3
"""Peers that break the exchange of a node with its broker, row by row against the built program.

`python3 vectors/broker_peers.py PROGRAM` runs `broker` with nodes of a script, and `serve-node` with brokers of a script and runs of
`prove`, over connections of this machine. Of each row the lines and the status stand here; what `exchanges.py` and `program.py` compute
apart must be the same, and so must what the program sends, and its journals byte for byte. The rows are:

  - nodes: numbers and counts that there may not be, another frame, an end at each byte, more bytes, single bytes; a want that comes
    again, with another count too, and an older one; the last units, and what comes behind; 4,096 units; a node that is silent, slow,
    gone before its reply, or never reads it;
  - a broker whose journal can't be written, whose output is full, that is killed between a want and the same again, and that does not start;
  - brokers: ends at each byte of a reply, resets, silence, nobody there; frames that are no reply; blocks of another node or number, of
    no units, of too few, past the total, of units that were claimed; outs; 63 of these and then a block, and 64 of them;
  - nodes whose journal can't be written, or has one slot; blocks that come in another order; provers that are refused before a want;
  - journals of another file, and of another kind, and two nodes that share one.

It prints how many rows there were, and ends with 0 only where all held.
"""
import pathlib
import re
import signal
import socket
import sys
import tempfile
import threading
import time
from typing import Callable, List, NamedTuple, Optional, Sequence, Tuple

import program
from common import KEY, VERIFIER_COINS, element, frame
from dealt_files import header, journal, sealed
from ends import Link, hold
from endings import AND, SUM, with_slots
from exchanges import TRIES, Block, Broker, Node, Out, Want, answer
from hostile_peers import reset, talk, while_stopped
from parties import DIRECT, Room, Span, slots_of
from processes import SECONDS, Followed, Ran, Service, end_all, free_address, without_output, without_writes
from safe_runs import SLACK

TOTAL = 100
NODE = 3
NODE_JOURNAL = f"x.verifier.node.{NODE}"
MANY = 4200  # units of a file whose broker may answer a want of 4,096

BLOCK_REFUSED = f"no grant block {TRIES}\n"


# ---- nodes of a script


class Sent(NamedTuple):
    """What a node sends, in pieces of so many bytes, and the line of the broker."""

    data: bytes
    line: str
    piece: int = 4096


class Called(NamedTuple):
    """Nodes that call one after another, and the status of the broker."""

    what: str
    nodes: List[Sent]
    status: int


class WideRoom(Room):
    """A room whose verifier's file is dealt for many units, all of whose keys are 0: no session is led over it."""

    def deal(self) -> None:
        params = DIRECT._replace(total=self.total)
        keys = bytes(512 * self.total)
        self.put("x.verifier", sealed(bytes(header(1, params, VERIFIER_COINS, bytes(32))) + element(KEY) + keys))
        for name in ("x.prover", "x.prover.journal"):
            self.put(name, b"")


def renew(room: Room) -> None:
    """A new journal of ceilings, of the node's claims and of the prover's."""
    room.put("x.verifier.journal", journal(1, room.total))
    room.put(NODE_JOURNAL, journal(0, room.total, 4096))
    for holder in room.holders:
        room.put(f"{holder}.journal", journal(0, room.total))


def broker_words(asks: int, *more: str) -> List[str]:
    return ["x.verifier", "--asks", str(asks), *more]


def begun(room: Room, asks: int, *more: str, words: Optional[List[str]] = None) -> Service:
    """A broker that answers so many wants."""
    return Service(words or room.program, room.folder, broker_words(asks, *more), "broker")


def check_called(room: Room, row: Called) -> None:
    renew(room)
    disk = program.Disk(room.get("x.verifier.journal"), 0)
    broker = Broker(program.open_leases(disk, room.total).grant)
    computed = [answer(broker, Link(sent.data, sent.piece)) for sent in row.nodes]
    service = begun(room, len(row.nodes))
    came = [talk(service.address, sent.data, sent.piece) for sent in row.nodes]
    served = service.end()
    lines = "".join(sent.line + "\n" for sent in row.nodes)
    assert served == (lines, row.status), (row, served)
    said = "".join(map(program.exchange_line, computed))
    assert (said, program.first_status([program.exchange_status(each) for each in computed])) == served, (row, said)
    assert came == [each.end.sent() for each in computed], (row, came)
    assert room.get("x.verifier.journal") == bytes(disk.data), row


def want(node: int = NODE, number: int = 1, count: int = 1) -> bytes:
    return Want(node, number, count).frame()


def block_line(number: int, start: int, end: int, node: int = NODE) -> str:
    return f"want {node} {number} block {start}..{end}"


def out_line(number: int, at: int, node: int = NODE) -> str:
    return f"want {node} {number} out {at}"


def bad_wants(hello: bytes) -> List[Called]:
    """Wants of which some byte is the first after which there is none."""
    honest = want()
    wrong = [("a hello", hello, 0), ("a block", Block(NODE, 1, 0, 16).frame(), 0), ("an out", Out(NODE, 1, 0).frame(), 0), ("one byte 0", b"\0", 0)]
    wrong += [(f"byte {place} of the length", honest[:place] + b"\x11" + honest[place + 1 :], place) for place in range(1, 5)]
    wrong += [(f"the node {node}", want(node), place) for node, place in ((1024, 6), (65536, 7), (2**24, 8), (2**32 - 1, 6))]
    counts = ((0, 18), (4097, 18), (65536, 18), (65537, 19), (2**24 + 1, 20), (2**32 - 1, 18))
    wrong += [(f"{count} units", want(count=count), place) for count, place in counts]
    rows = [Called(what, [Sent(data, f"no want frame {place}")], 1) for what, data, place in wrong]
    return rows + [Called("all of them", [Sent(data, f"no want frame {place}") for _, data, place in wrong], 1)]


def wants() -> List[Called]:
    """Wants of one node and of several."""
    first = Sent(want(), block_line(1, 0, 16))
    ended = [Sent(want()[:count], f"no want ended {count}") for count in range(21)]
    rows = [Called("an end at each byte", ended, 1), Called("the same in single bytes", [each._replace(piece=1) for each in ended], 1)]
    rows.append(Called("ends, and then a want", [*ended[:3], first], 1))
    more = [Sent(want() + data, block_line(1, 0, 16)) for data in (b"\0", want(number=2), bytes(3000))]
    rows.append(Called("a want, and more bytes", more, 0))
    rows.append(Called("a want in single bytes", [first._replace(piece=1)], 0))
    rows.append(Called("the same want again", [first, first, first], 0))
    counts = [Sent(want(count=count), block_line(1, 0, 16)) for count in (3, 1, 16, 17, 4096)]
    rows.append(Called("the same number with other counts", counts, 0))
    numbers = [Sent(want(number=number), block_line(number, 16 * i, 16 * i + 16)) for i, number in enumerate((1, 2, 1, 2**64 - 1, 0))]
    rows.append(Called("numbers in any order, and older ones", numbers, 0))
    nodes = [Sent(want(node, 7), block_line(7, start, start + 16, node)) for node, start in ((0, 0), (1023, 16), (0, 0), (5, 32), (1023, 16))]
    rows.append(Called("several nodes, and each again", nodes, 0))
    sizes = [Sent(want(number=i, count=count), block_line(i, start, end)) for i, (count, start, end) in enumerate(((16, 0, 16), (17, 16, 48), (33, 48, 96)))]
    rows.append(Called("counts of 16, 17 and 33", sizes, 0))
    last = Sent(want(number=1, count=96), block_line(1, 0, 96))
    outs = [last, Sent(want(number=2), out_line(2, 96)), last, Sent(want(4), out_line(1, 96, 4)), Sent(want(number=2, count=4096), out_line(2, 96))]
    rows.append(Called("the last units, outs, and the last block again", outs, 6))
    early = [first, Sent(want(number=2, count=96), out_line(2, 16)), Sent(want(number=3), out_line(3, 16)), first]
    rows.append(Called("too many units, and then fewer", early, 6))
    return rows + [Called("an out and a bad want", [Sent(want(count=101), out_line(1, 0)), Sent(want(1024), "no want frame 6")], 6)]


def wide_wants() -> List[Called]:
    # 104 units are left behind the first block, and for 100 of them 112 are leased.
    most = [Sent(want(count=4096), block_line(1, 0, 4096)), Sent(want(number=2, count=100), out_line(2, 4096))]
    last = [Sent(want(count=4096), block_line(1, 0, 4096)), Sent(want(number=2, count=96), block_line(2, 4096, 4192))]
    return [Called("4,096 units, and more than are left", most, 6), Called("4,096 units, and 96", last, 0)]


def timed(room: Room, steps: Callable[[socket.socket, Service], None], line: str, status: int) -> None:
    """A node that is given up after a second, and how long that took."""
    renew(room)
    service = begun(room, 1, "--timeout", "1")
    with socket.create_connection(service.address, timeout=SECONDS) as stream:
        began = time.monotonic()
        steps(stream, service)
        served = service.end()
        took = time.monotonic() - began
    assert served == (line, status) and 0.9 < took < 1 + SLACK, (line, served, took)


def drip(stream: socket.socket, service: Service) -> None:
    """Sends a byte of a want now and then, as long as the broker waits."""
    for at in range(21):
        if service.is_over():
            return
        try:
            stream.sendall(want()[at : at + 1])
        except OSError:
            return
        time.sleep(0.3)


def silent_nodes(room: Room) -> int:
    for count in (0, 1, 20):
        timed(room, lambda stream, service: stream.sendall(want()[:count]), "no want link\n", 4)
    timed(room, drip, "no want link\n", 4)
    return 4


def unread_reply(room: Room) -> None:
    """A node that never reads: the reply went out."""
    renew(room)
    service = begun(room, 1)
    with socket.create_connection(service.address, timeout=SECONDS) as stream:
        stream.sendall(want())
        assert service.end() == (block_line(1, 0, 16) + "\n", 0)


def unsent_reply(room: Room) -> None:
    """A node that is gone when its reply is due, and asks again with the same number: the units were leased, and are kept for it."""
    renew(room)
    service = begun(room, 3)
    stream = socket.create_connection(service.address, timeout=SECONDS)
    stream.sendall(want()[:10])
    time.sleep(0.1)
    while_stopped(service, stream, want()[10:])
    again = [talk(service.address, want(), 21), talk(service.address, want(number=2), 21)]
    assert again == [Block(NODE, 1, 0, 16).frame(), Block(NODE, 2, 16, 16).frame()], again
    served = service.end()
    assert served == (f"no want link\n{block_line(1, 0, 16)}\n{block_line(2, 16, 32)}\n", 4), served


def failing_journal(room: Room) -> None:
    """The first lease fails by the device, and each later one by that; nothing is sent."""
    renew(room)
    service = begun(room, 3, words=without_writes(room.program))
    came = [talk(service.address, want(number=number), 21) for number in (1, 1, 2)]
    served = service.end()
    assert served == ("no want device\nno want journal 1\nno want journal 1\n", 5) and came == [b""] * 3, (served, came)
    assert room.ceiling() == 0


def full_output(room: Room) -> None:
    renew(room)
    service = begun(room, 1, words=without_output(room.program))
    assert talk(service.address, want(), 21) == Block(NODE, 1, 0, 16).frame()
    assert service.end() == ("", 4)


def followed_broker(room: Room) -> None:
    """Who follows a broker hears where it listens, what is left, and each line."""
    renew(room)
    room.put("x.verifier.journal", with_slots(journal(1, room.total), [(16, 0)]))
    process = Followed(room.program, room.folder, ["broker", "127.0.0.1:0", *broker_words(2)])
    address = process.address()
    assert address is not None and address[1] != 0
    for number in (1, 2):
        talk(address, want(number=number), 21)
    lines = [block_line(1, 16, 32), block_line(2, 32, 48)]
    assert process.end() == ("".join(f"{line}\n" for line in lines), 0), process.end()
    assert process.said == ["listening %s:%d" % address, f"left {room.total - 16}", *lines], process.said


def killed_broker(room: Room) -> None:
    """After a kill the same want leases anew, above what was leased."""
    renew(room)
    for start in (0, 16):
        service = begun(room, 2)
        assert talk(service.address, want(), 21) == Block(NODE, 1, start, 16).frame()
        service.kill()
        assert service.end().status == -signal.SIGKILL
    assert room.ceiling() == 32


def shared_ceilings(room: Room) -> None:
    """While a broker has the journal no other run has it; and it goes on."""
    renew(room)
    service = begun(room, 1)
    others = [["broker", "127.0.0.1:0", *broker_words(1)], ["serve", "127.0.0.1:0", "x.verifier", "circuit", "1", "--sessions", "1"], ["status", "x.verifier"]]
    for words in others:
        ran = room.run(*words)
        assert ran == ("journal failed 1\n", 5), (words, ran)
    assert talk(service.address, want(), 21) == Block(NODE, 1, 0, 16).frame()
    assert service.end() == (block_line(1, 0, 16) + "\n", 0)


def starts_of_brokers(room: Room) -> int:
    """Brokers that do not start, and words that ask for none."""
    renew(room)
    with socket.create_server(("127.0.0.1", 0)) as taken:
        here = "%s:%d" % taken.getsockname()
        rows = [
            (["127.0.0.1:0", "p0", "--asks", "1"], "refused BadKind 2\n", 3),
            (["127.0.0.1:0", "circuit", "--asks", "1"], "refused BadMagic 1\n", 3),
            (["127.0.0.1:0", "missing", "--asks", "1"], "failed shelf\n", 4),
            ([here, *broker_words(1)], "failed door\n", 4),
            (["nowhere", *broker_words(1)], "failed door\n", 4),
        ]
        usage = ["", "127.0.0.1:0", "127.0.0.1:0 x.verifier", "127.0.0.1:0 x.verifier --asks 0", "127.0.0.1:0 x.verifier --asks 65537"]
        usage += ["127.0.0.1:0 x.verifier --asks 1 --timeout 0", "127.0.0.1:0 x.verifier --asks 1 --asks 1", "127.0.0.1:0 x.verifier more --asks 1"]
        usage += ["127.0.0.1:0 x.verifier --asks 1 --sessions 1", "127.0.0.1:0 x.verifier --asks 1 --workers 1", "127.0.0.1:0 x.verifier --asks 1 --node 3"]
        for words, line, status in rows:
            ran = room.run("broker", *words)
            assert ran == (line, status), (words, ran)
        for text in usage:
            check_usage(room, ["broker", *text.split()])
    for data, line in [(journal(0, room.total), "refused BadHeader 2 8\n"), (journal(1, room.total)[:-1], None), (None, "journal failed 1\n")]:
        if data is None:
            (room.folder / "x.verifier.journal").unlink()
        else:
            room.put("x.verifier.journal", data)
        size = len(data or b"")
        ran = room.run("broker", "127.0.0.1:0", *broker_words(1))
        assert ran.text == (line or f"refused Short 1 {size + 1} {size}\n") and ran.status == (5 if data is None else 3), (line, ran)
    return len(rows) + len(usage) + 3


def check_usage(room: Room, words: List[str]) -> None:
    """Words of no command, which is said with the names of all."""
    ran = room.run(*words)
    assert ran.status == 2 and re.fullmatch(r"usage: zk deal, .*\n", ran.text), (words, ran)


# ---- brokers of a script


RESET, SILENT = b"reset", b"silent"


class Lent(NamedTuple):
    """What a broker answers to one want after another: bytes, of which there may be none, a reset or silence; for how many sessions; the lines,
    the status, and what the node claims, beside what it had claimed; and the numbers of its wants."""

    what: str
    replies: List[bytes]
    sessions: int
    lines: str
    status: int
    claims: List[Span]
    numbers: List[int]
    before: Sequence[Span] = ()
    piece: int = 4096


class ScriptBroker(threading.Thread):
    """Takes one want after another and answers so."""

    def __init__(self, replies: List[bytes], piece: int = 4096, address: Tuple[str, int] = ("127.0.0.1", 0)):
        super().__init__()
        self.replies, self.piece = replies, piece
        self.wants: List[bytes] = []
        self.listener = socket.create_server(address, backlog=256)
        self.start()

    def place(self) -> str:
        return "%s:%d" % self.listener.getsockname()

    def run(self) -> None:
        with self.listener:
            for reply in self.replies:
                stream = self.listener.accept()[0]
                with stream:
                    stream.settimeout(SECONDS)
                    stream.setsockopt(socket.IPPROTO_TCP, socket.TCP_NODELAY, 1)
                    self.wants.append(stream.recv(21, socket.MSG_WAITALL))
                    self.answer(stream, reply)

    def answer(self, stream: socket.socket, reply: bytes) -> None:
        if reply == SILENT:
            stream.recv(1)
        elif reply.endswith(RESET):
            stream.sendall(reply[: -len(RESET)])
            time.sleep(0.05 * (reply != RESET))
            reset(stream)
        else:
            for at in range(0, len(reply), self.piece):
                stream.sendall(reply[at : at + self.piece])

    def finish(self) -> List[bytes]:
        """The wants, once all were answered."""
        self.join(SECONDS)
        assert not self.is_alive(), f"{len(self.wants)} of {len(self.replies)} wants came"
        return self.wants


def node_words(room: Room, broker: str, sessions: int, *more: str, node: str = str(NODE)) -> List[str]:
    return [broker, "x.verifier", "circuit", room.outputs, "--node", node, "--sessions", str(sessions), *more]


def serving(room: Room, broker: str, sessions: int, *more: str, words: Optional[List[str]] = None) -> Service:
    return Service(words or room.program, room.folder, node_words(room, broker, sessions, *more), "serve-node")


def granted_starts(lines: str) -> List[int]:
    return [int(start) for start in re.findall(r"units (\d+)\.\.", lines)]


def computed(room: Room, row: Lent, starts: List[Optional[int]]) -> Tuple[str, int, List[bytes], bytes]:
    """The lines, the status, the wants and the journal of a node, with provers whose units begin there."""
    disk = program.Disk(room.get(NODE_JOURNAL), 0)
    scripts = [(reply[: -len(RESET)], 2 + (reply != RESET)) if reply.endswith(RESET) else (b"", 2) if reply == SILENT else (reply, 0) for reply in row.replies]
    brokers = [Link(script, row.piece, failing) for script, failing in scripts]
    outside = program.Outside({}, disk, brokers=brokers)
    lender = program.Lender(outside, Node(NODE, program.open_claims(disk, room.total).claim))
    service = program.Service("x.verifier", row.sessions, room.subject.section, None, "here", False)
    provers = [Link(hold(room.job, start or 0)[0]) for start in starts]
    notes, _ = program.lead_by_node(outside, [room.job], lender, service, provers)
    wants = [each.end.sent() for note in notes for each in note.tries]
    ordered = sorted((each.note for each in notes), key=program.start_of)
    status = program.first_status([program.status_of(outcome) for outcome, _ in ordered])
    return program.served_text(ordered, False), status, wants, bytes(disk.data)


def prove_all(room: Room, place: str, sessions: int) -> List[Ran]:
    return [room.proving(place, "p0").end() for _ in range(sessions)]


def starts_of(ran: List[Ran]) -> List[Optional[int]]:
    """The first units of provers' sessions, which were accepted, or refused for want of units."""
    starts: List[Optional[int]] = []
    for each in ran:
        found = re.fullmatch(r"units (\d+)\.\.\d+ accepted\n", each.text)
        assert each == ("peer refused 3\n", 8) or found and each.status == 0, ran
        starts.append(int(found[1]) if found else None)
    return starts


def check_lent(room: Room, row: Lent) -> None:
    renew(room)
    room.put(NODE_JOURNAL, with_slots(room.get(NODE_JOURNAL), list(row.before)))
    broker = ScriptBroker(row.replies, row.piece)
    before = room.get(NODE_JOURNAL)
    more = ["--timeout", "1"] if SILENT in row.replies else []
    service = serving(room, broker.place(), row.sessions, *more)
    starts = starts_of(prove_all(room, service.place(), row.sessions))
    served = service.end()
    wants = broker.finish()
    assert served == (row.lines, row.status), (row, served)
    count = room.size
    assert wants == [want(NODE, number, count) for number in row.numbers], (row, wants)
    assert slots_of(room.get(NODE_JOURNAL)) == [*row.before, *row.claims], (row, slots_of(room.get(NODE_JOURNAL)))
    assert sorted(start for start in starts if start is not None) == sorted(granted_starts(row.lines)), (row, starts)
    after = room.get(NODE_JOURNAL)
    room.put(NODE_JOURNAL, before)
    assert computed(room, row, starts) == (*served, wants, after), (row, computed(room, row, starts)[:2])


def accepted(*starts: int, size: int = 1) -> str:
    return "".join(f"units {start}..{start + size} accepted\n" for start in starts)


def block(number: int, start: int, count: int = 16, node: int = NODE) -> bytes:
    return Block(node, number, start, count).frame()


def out(number: int = 1, at: int = 0) -> bytes:
    return Out(NODE, number, at).frame()


def lent_rows(hello: bytes) -> List[Lent]:
    """Brokers of nodes whose sessions take one unit."""
    first, ones = block(1, 0), [1] * TRIES

    def refused(what: str, reply: bytes, numbers: Sequence[int] = tuple(ones)) -> Lent:
        return Lent(f"64 times {what}", [reply] * TRIES, 1, BLOCK_REFUSED, 1, [], list(numbers))

    strange = [hello, want(), frame(2, bytes(16)), b"\0", b"\x0c\x19", b"\x0c\x18\1", b"\x0d\x15", b"\x0d\x14\0\0\1", first[1:]]
    past = [block(number, 85 + number % 32) for number in range(1, TRIES + 1)]
    return [
        Lent("two sessions of one block", [first], 2, accepted(0, 1), 0, [(0, 16)], [1]),
        Lent("a block in single bytes", [first], 1, accepted(0), 0, [(0, 16)], [1], piece=1),
        Lent("a block and more bytes", [first + bytes(99)], 1, accepted(0), 0, [(0, 16)], [1]),
        Lent("a block of one unit, and another", [block(1, 7, 1), block(2, 5, 1)], 2, accepted(5, 7), 0, [(7, 8), (5, 6)], [1, 2]),
        Lent("an end at each byte of a block", [*(first[:count] for count in range(29)), first], 1, accepted(0), 0, [(0, 16)], [1] * 30),
        Lent("an end at each byte of an out", [*(out()[:count] for count in range(25)), first], 1, accepted(0), 0, [(0, 16)], [1] * 26),
        Lent("frames that are no reply", [*strange, first], 1, accepted(0), 0, [(0, 16)], [1] * 10),
        refused("a hello", hello),
        refused("an end", b""),
        refused("an out", out()),
        refused("a block of another node", block(1, 0, node=NODE + 1)),
        refused("a block of the node 2^32 - 1", block(1, 0, node=2**32 - 1)),
        refused("a block of an earlier number", block(0, 0)),
        refused("a block of a later number", block(2, 0)),
        refused("a block of no units", block(1, 0, 0)),
        Lent("63 outs and then a block", [out()] * 63 + [first], 1, accepted(0), 0, [(0, 16)], ones),
        Lent("64 outs, and then a block", [out()] * 64 + [first], 2, accepted(0) + BLOCK_REFUSED, 1, [(0, 16)], [*ones, 1]),
        Lent("64 blocks past the total", past, 1, BLOCK_REFUSED, 1, [], list(range(1, 65))),
        Lent("the same, and then a block", [*past, block(65, 84)], 2, accepted(84) + BLOCK_REFUSED, 1, [(84, 100)], list(range(1, 66))),
        Lent("blocks that end past 2^64", [block(1, 2**64 - 1), block(2, 0, 2**32 - 1), block(3, 0)], 1, accepted(0), 0, [(0, 16)], [1, 2, 3]),
        Lent("the last units", [block(1, 99, 1), block(2, 100, 1), block(3, 98, 1)], 2, accepted(98, 99), 0, [(99, 100), (98, 99)], [1, 2, 3]),
        Lent("units that were claimed", [block(1, 0), block(2, 8), block(3, 15, 1), block(4, 16)], 1, accepted(16), 0, [(16, 32)], [1, 2, 3, 4], [(0, 16)]),
        Lent("the same block in later numbers", [first, block(2, 0), block(3, 32)], 17, accepted(*range(16), 32), 0, [(0, 16), (32, 48)], [1, 2, 3]),
        Lent("the same reply again", [first, *[first] * 4, block(2, 16)], 17, accepted(*range(17)), 0, [(0, 16), (16, 32)], [1, *[2] * 5]),
        Lent("a reset", [RESET, first], 2, accepted(0) + "no grant broker\n", 4, [(0, 16)], [1, 1]),
        Lent("a reset inside a block", [first[:9] + RESET, first], 2, accepted(0) + "no grant broker\n", 4, [(0, 16)], [1, 1]),
        Lent("outs and then a reset", [out(), out(), RESET, first], 2, accepted(0) + "no grant broker\n", 4, [(0, 16)], [1] * 4),
        Lent("silence", [SILENT, first], 2, accepted(0) + "no grant broker\n", 4, [(0, 16)], [1, 1]),
        Lent("a block of 4,096 units of 100", [block(1, 0, 4096), block(2, 0, 100)], 1, accepted(0), 0, [(0, 100)], [1, 2]),
    ]


def seven_rows() -> List[Lent]:
    """Brokers of nodes whose sessions take seven units."""

    def granted(*starts: int) -> str:
        return accepted(*starts, size=7)

    few = [block(1, 0, 4), block(2, 4, 6), block(3, 10)]
    return [
        Lent("blocks of too few units", few, 1, granted(10), 0, [(0, 4), (4, 10), (10, 26)], [1, 2, 3]),
        Lent("64 of them", [block(i, i, 1) for i in range(1, 65)], 1, BLOCK_REFUSED, 1, [(i, i + 1) for i in range(1, 65)], list(range(1, 65))),
        Lent("just as many units", [block(1, 0, 7), block(2, 7, 7)], 2, granted(0, 7), 0, [(0, 7), (7, 14)], [1, 2]),
        Lent("what is left of a block is burnt", [block(1, 0), block(2, 32)], 4, granted(0, 7, 32, 39), 0, [(0, 16), (32, 48)], [1, 2]),
        Lent("also by a block of too few", [block(1, 0), block(2, 16, 1), block(3, 32)], 3, granted(0, 7, 32), 0, [(0, 16), (16, 17), (32, 48)], [1, 2, 3]),
        Lent("blocks that fall", [block(1, 64), block(2, 32), block(3, 0)], 5, granted(0, 32, 39, 64, 71), 0, [(64, 80), (32, 48), (0, 16)], [1, 2, 3]),
    ]


def nobody_there(room: Room) -> None:
    """No broker listens: each session says so, and when one listens later, later sessions are granted units."""
    renew(room)
    address = free_address()
    service = serving(room, "%s:%d" % address, 3)
    refused = prove_all(room, service.place(), 2)
    broker = ScriptBroker([block(1, 0)], address=address)
    came = prove_all(room, service.place(), 1)
    assert refused == [("peer refused 3\n", 8)] * 2 and came == [(accepted(0), 0)], (refused, came)
    assert broker.finish() == [want()] and service.end() == (accepted(0) + 2 * "no grant broker\n", 4), service.end()


def no_address(room: Room) -> None:
    """The broker's word is no address: that is found out where units are asked for."""
    renew(room)
    service = serving(room, "nowhere", 1)
    assert prove_all(room, service.place(), 1) == [("peer refused 3\n", 8)]
    assert service.end() == ("no grant broker\n", 4)


def lost_claims(room: Room) -> None:
    """The node's journal can't be written: the first claim fails by the device, and later ones by that, though blocks come."""
    renew(room)
    before = room.get(NODE_JOURNAL)
    broker = ScriptBroker([block(1, 0), block(2, 16), block(3, 32)])
    service = serving(room, broker.place(), 3, words=without_writes(room.program))
    assert prove_all(room, service.place(), 3) == [("peer refused 3\n", 8)] * 3
    served = service.end()
    assert served == ("no grant device\n" + 2 * "no grant journal 1\n", 5), served
    assert broker.finish() == [want(number=number) for number in (1, 2, 3)]
    assert slots_of(room.get(NODE_JOURNAL)) == slots_of(before) == []


def one_slot(room: Room) -> None:
    """A journal of one slot, which is in use: a block that touches its claim is taken, and others are not."""
    renew(room)
    room.put(NODE_JOURNAL, with_slots(journal(0, room.total, 1), [(50, 51)]))
    broker = ScriptBroker([block(1, 0), block(2, 70), block(3, 51)])
    service = serving(room, broker.place(), 1)
    assert prove_all(room, service.place(), 1) == [(accepted(51), 0)]
    assert service.end() == (accepted(51), 0) and broker.finish() == [want(number=number) for number in (1, 2, 3)]
    assert slots_of(room.get(NODE_JOURNAL)) == [(50, 67)]


def late_block(room: Room) -> None:
    """A node is killed, and asks with its first number anew: the late block of that number is refused, and the next want has number 2."""
    renew(room)
    first = ScriptBroker([block(1, 0)])
    service = serving(room, first.place(), 2)
    assert prove_all(room, service.place(), 1) == [(accepted(0), 0)]
    service.kill()
    assert service.end().status == -signal.SIGKILL and first.finish() == [want()]
    second = ScriptBroker([block(1, 0), block(2, 16)])
    service = serving(room, second.place(), 1)
    assert prove_all(room, service.place(), 1) == [(accepted(16), 0)]
    assert service.end() == (accepted(16), 0) and second.finish() == [want(), want(number=2)]
    left = room.run("status", "x.verifier", "--node", str(NODE)).text.splitlines()[2]
    assert left == f"used 32 left {room.total - 32}", left


def unasked(room: Room) -> None:
    """Provers that are refused, or end, before units are asked for: no want is sent."""
    renew(room)
    hello = room.job.hello()
    with socket.create_server(("127.0.0.1", 0)) as broker:
        service = serving(room, "%s:%d" % broker.getsockname(), 3)
        came = [talk(service.address, data, 4096) for data in (b"", hello[:37] + bytes(32) + hello[69:], b"\2")]
        assert came == [b"", frame(10, b"\1"), b""], came
        served = service.end()
        broker.setblocking(False)
        try:
            called = bool(broker.accept())
        except BlockingIOError:
            called = False
    assert served == ("no grant ended 0\nno grant frame 0\nno grant hello statement\n", 1) and not called, served


def followed_node(room: Room) -> None:
    """Who follows a node hears where it listens, what it has not claimed, and each line."""
    renew(room)
    room.put(NODE_JOURNAL, with_slots(room.get(NODE_JOURNAL), [(90, 100)]))
    broker = ScriptBroker([block(1, 0)])
    process = Followed(room.program, room.folder, ["serve-node", "127.0.0.1:0", *node_words(room, broker.place(), 2)])
    address = process.address()
    assert address is not None
    prove_all(room, "%s:%d" % address, 2)
    assert process.end() == (accepted(0, 1), 0), process.end()
    assert process.said == ["listening %s:%d" % address, f"left {room.total - 10} sessions {room.total - 10}", *accepted(0, 1).splitlines()], process.said
    broker.finish()


def shared_claims(room: Room) -> None:
    """Two nodes of one number: the second is locked out, also under another spelling of it, and so is `status`; the first goes on."""
    renew(room)
    broker = ScriptBroker([block(1, 0)])
    service = serving(room, broker.place(), 1)
    for node in ("3", "003"):
        ran = room.run("serve-node", "127.0.0.1:0", *node_words(room, broker.place(), 1, node=node))
        assert ran == ("journal failed 1\n", 5), ran
    ran = room.run("status", "x.verifier", "--node", str(NODE))
    assert ran == ("journal failed 1\n", 5), ran
    assert prove_all(room, service.place(), 1) == [(accepted(0), 0)] and service.end() == (accepted(0), 0)
    broker.finish()


def starts_of_nodes(room: Room) -> int:
    """Nodes that do not start, and words that ask for none."""
    renew(room)
    new, here = room.get(NODE_JOURNAL), "127.0.0.1:0"
    words = [here, *node_words(room, "nowhere", 1)]

    def with_byte(place: int) -> bytes:
        return new[:place] + bytes([new[place] ^ 1]) + new[place + 1 :]

    rows: List[Tuple[Optional[bytes], str, int]] = [(with_byte(place), f"refused BadHeader 2 {place}\n", 3) for place in (0, 8, 16, 32, 63)]
    rows += [(journal(1, room.total), "refused BadHeader 2 8\n", 3), (new[:-1], f"refused Short 1 {len(new)} {len(new) - 1}\n", 3)]
    rows += [(with_slots(new, [(0, 16), (8, 24)]), "refused BadBody 3 1\n", 3), (None, "journal failed 1\n", 5)]
    for data, line, status in rows:
        if data is None:
            (room.folder / NODE_JOURNAL).unlink()
        else:
            room.put(NODE_JOURNAL, data)
        ran = room.run("serve-node", *words)
        assert ran == (line, status), (line, ran)
    renew(room)
    swaps = [("x.verifier", "p0", "refused BadKind 2\n", 3), ("x.verifier", "missing", "failed shelf\n", 4), ("circuit", "missing", "failed shelf\n", 4)]
    swaps += [("circuit", "x.verifier", "refused BadNumber 2 0\n", 3), (room.outputs, "11", "refused outputs 1 2\n", 3), (here, "nowhere", "failed door\n", 4)]
    for old, other, line, status in swaps:
        ran = room.run("serve-node", *[other if word == old else word for word in words])
        assert ran == (line, status), (old, other, ran)
    usage = ["--section 1", "--workers 1", "--logs l", "--public 1", "--timeout 0", "--timeout 86401", "--asks 1", "more", "--node 3"]
    for more in usage:
        check_usage(room, ["serve-node", *words, *more.split(" ")])
    for old, other in (("3", "1024"), ("3", "-1"), ("3", "x"), ("--node", "--nodes"), ("1", "0")):
        check_usage(room, ["serve-node", *[other if word == old else word for word in words]])
    return len(rows) + len(swaps) + len(usage) + 5


# ---- all of them


def check_brokers(path: str, folder: pathlib.Path) -> int:
    room, wide = Room(path, folder / "broker", AND, TOTAL, 1), WideRoom(path, folder / "wide", AND, MANY, 0)
    rows = [(room, row) for row in bad_wants(room.job.hello()) + wants()] + [(wide, row) for row in wide_wants()]
    for place, row in rows:
        check_called(place, row)
    checks = [unread_reply, unsent_reply, failing_journal, full_output, followed_broker, killed_broker, shared_ceilings]
    for check in checks:
        check(room)
    return len(rows) + len(checks) + silent_nodes(room) + starts_of_brokers(room)


def check_nodes(path: str, folder: pathlib.Path) -> int:
    room, seven = Room(path, folder / "node", AND, TOTAL, 1), Room(path, folder / "seven", SUM, TOTAL, 1)
    rows = [(room, row) for row in lent_rows(room.job.hello())] + [(seven, row) for row in seven_rows()]
    for place, row in rows:
        check_lent(place, row)
    checks = [nobody_there, no_address, lost_claims, one_slot, late_block, unasked, followed_node, shared_claims]
    for check in checks:
        check(room)
    return len(rows) + len(checks) + starts_of_nodes(room)


def main() -> int:
    path = str(pathlib.Path(sys.argv[1]).resolve())
    with tempfile.TemporaryDirectory() as name:
        folder = pathlib.Path(name)
        try:
            count = check_brokers(path, folder) + check_nodes(path, folder)
        finally:
            end_all()
    print(f"{count} rows of nodes and brokers that break their exchange: each line and status as it must be")
    return 0


if __name__ == "__main__":
    sys.exit(main())
