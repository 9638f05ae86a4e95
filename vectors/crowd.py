"""One service and a crowd of peers: many that are hostile, and honest ones among them.

A hostile peer sends what an honest prover does with an edit: cut, with a byte changed, put in or left out, or with noise from
some place on; at once or in single bytes; and ends, or resets the connection. It goes on as long as the verifier answers.
`ends.py` says of what it has sent how its session ends and what comes back, so the lines of the service are known. The peers are
drawn from a fixed seed.
"""
import functools
import pathlib
import random
import re
import socket
import struct
import threading
import time
from concurrent.futures import ThreadPoolExecutor
from typing import List, NamedTuple, Optional, Tuple, Union

from common import PROVER_COINS, VERIFIER_COINS, KEY, dealt_correlations, element
from dealt_files import header, journal, sealed
from endings import AND
from ends import End, Link, hold, verify
from hostile_peers import reset
from parties import DIRECT, Room, are_apart
from processes import SECONDS, Process, Service
from program import note_line

SEED = "crowd"
WORKERS, CALLERS, PROVERS = 8, 24, 100
HONEST_BYTES = 165
PARTS = [(0, 102), (102, 131), (131, HONEST_BYTES)]

# What may be held for a session that has ended: its note with its log, and what the allocator leaves around them.
BYTES_A_SESSION, BYTES_BESIDE = 4096, 32 << 20

KINDS = {"honest": 4, "slow": 1, "noise": 15, "cut": 20, "slow cut": 3, "changed": 25, "put in": 8, "left out": 8, "reset": 14}


class Plan(NamedTuple):
    """What a peer does: the kind and the place of its edit, and the bytes or the mask of it."""

    kind: str
    place: int
    more: bytes

    def part(self, honest: bytes, first: int) -> Tuple[bytes, bool]:
        """What is sent of a part that begins at this place, and whether it is the last."""
        at = self.place - first
        if self.kind in ("honest", "slow") or not 0 <= at < len(honest):
            return honest, False
        before, behind = honest[:at], honest[at:]
        if self.kind == "changed":
            return before + bytes([behind[0] ^ self.more[0]]) + behind[1:], False
        if self.kind == "put in":
            return before + self.more[:1] + behind, False
        if self.kind == "left out":
            return before + behind[1:], False
        return before + (self.more if self.kind == "noise" else b""), True


def plan_of(index: int) -> Plan:
    """The plan of the peer of this number."""
    draw = random.Random(f"{SEED} {index}")
    [kind] = draw.choices(list(KINDS), weights=list(KINDS.values()))
    place = 0 if draw.random() < 0.1 else draw.randrange(130 if kind == "reset" else HONEST_BYTES)
    if kind == "changed":
        return Plan(kind, place, bytes([1 << draw.randrange(8)]))
    return Plan(kind, place, draw.randbytes(draw.choice([1, 2, 40, 300])))


class CrowdRoom(Room):
    """A room with a unit for each session, of which four correlations are dealt from the seed, and all others are 0."""

    def deal(self) -> None:
        params = DIRECT._replace(total=self.total)
        prover = bytearray(header(0, params, PROVER_COINS, bytes(32)))
        verifier = bytearray(header(1, params, VERIFIER_COINS, bytes(32)) + element(KEY))
        for unit in range(self.total):
            used = dealt_correlations(unit, 4)
            prover += b"".join(element(x) + element(m) for x, m, _ in used) + bytes(16 * 60)
            verifier += b"".join(element(k) for _, _, k in used) + bytes(8 * 60)
        self.put("x.prover", sealed(bytes(prover)))
        self.put("x.verifier", sealed(bytes(verifier)))
        self.put("x.prover.journal", journal(0, self.total))
        self.put("x.verifier.journal", journal(1, self.total))


class Met(NamedTuple):
    """A peer's kind, its first unit, and the line that the service must say of it."""

    kind: str
    start: Optional[int]
    line: str


class Peer:
    """A connection of a peer, what it has sent, and what has come."""

    def __init__(self, room: Room, address: Tuple[str, int], is_slow: bool):
        self.job, self.is_slow = room.job, is_slow
        self.stream = socket.create_connection(address, timeout=SECONDS)
        self.stream.setsockopt(socket.IPPROTO_TCP, socket.TCP_NODELAY, 1)
        self.sent = self.came = b""
        self.start: Optional[int] = None

    def send(self, data: bytes) -> None:
        for piece in [data[at : at + 1] for at in range(len(data))] if self.is_slow else [data]:
            self.stream.sendall(piece)
            if self.is_slow:
                time.sleep(0.001)
        self.sent += data

    def due(self) -> Tuple[str, End]:
        """How the session ends where no more is sent, and the verifier's end."""
        return verify(self.job, Link(self.sent), self.start or 0)

    def take(self, count: int) -> bool:
        """Takes so many bytes more, and the first unit of a grant; whether they came."""
        while len(self.came) < count and (piece := self.stream.recv(count - len(self.came))):
            self.came += piece
        if self.start is None and self.came[:1] == b"\2" and len(self.came) >= 21:
            (self.start,) = struct.unpack("<Q", self.came[5:13])
        return len(self.came) == count

    def leave(self) -> None:
        """Ends its side and takes all that still comes."""
        with self.stream as stream:
            stream.shutdown(socket.SHUT_WR)
            while piece := stream.recv(65536):
                self.came += piece


def play(peer: Peer, plan: Plan) -> None:
    """Sends the parts of the plan as long as the verifier answers."""
    honest = peer.job.hello()
    for first, last in PARTS:
        if first == PARTS[1][0]:
            honest = hold(peer.job, peer.start or 0)[0]
        data, is_last = plan.part(honest[first:last], first)
        peer.send(data)
        outcome, end = peer.due()
        count = len(end.sent())
        if is_last or count == len(peer.came) or not peer.take(count) or not outcome.startswith("peer-ended"):
            return


def meet(room: Room, address: Tuple[str, int], index: int) -> Met:
    """A hostile or honest peer of a script; what came back is as it must be."""
    plan = plan_of(index)
    peer = Peer(room, address, plan.kind.startswith("slow"))
    play(peer, plan)
    if plan.kind == "reset":
        reset(peer.stream)
        line = "no grant link\n" if peer.start is None else f"units {peer.start}..{peer.start + 1} broken link\n"
        return Met(plan.kind, peer.start, line)
    peer.leave()
    if peer.start is None:
        peer.take(len(peer.came))
    outcome, end = peer.due()
    assert peer.came == end.sent(), (index, plan, peer.sent.hex(), peer.came.hex(), end.sent().hex())
    assert outcome == "accepted" or plan.kind not in ("honest", "slow"), (index, outcome)
    return Met(plan.kind, peer.start, note_line(outcome, end))


def prove(room: Room, place: str, holder: str) -> Met:
    """A run of `prove`, which must be accepted."""
    ran = room.proving(place, holder).end()
    claims = room.claims(holder)
    assert [(f"units {start}..{end} accepted\n", 0) for start, end in claims] == [ran], (holder, ran, claims)
    return Met("prove", claims[0][0], ran.text)


def call(room: Room, service: Service, index: int, every: int) -> Union[Met, str]:
    """The peer of this number, or what was found: each so many-th is a run of `prove`."""
    try:
        holder, rest = divmod(index, every)
        if rest == 0 and holder < len(room.holders):
            return prove(room, service.place(), room.holders[holder])
        return meet(room, service.address, index)
    except (AssertionError, OSError) as wrong:
        return f"peer {index} ({plan_of(index).kind}): {wrong!r}"


class Watch(threading.Thread):
    """Looks at the memory of a process as long as it runs: what was resident at first and at most, in KB."""

    def __init__(self, process: Process):
        super().__init__()
        self.process, self.pid = process, process.process.pid
        self.first = self.most = 0
        self.start()

    def run(self) -> None:
        status = pathlib.Path(f"/proc/{self.pid}/status")
        while self.process.process.returncode is None:
            try:
                found = re.search(r"VmHWM:\s+(\d+)", status.read_text())
            except OSError:
                return
            if found:
                self.first, self.most = self.first or int(found[1]), int(found[1])
            time.sleep(0.01)


def lines_of(met: List[Met]) -> str:
    """The lines of a service that has met these."""
    granted = sorted((each for each in met if each.start is not None), key=lambda each: each.start or 0)
    return "".join([each.line for each in granted] + sorted(each.line for each in met if each.start is None))


def differences(text: str, due: str) -> List[str]:
    """The first lines that differ, if any do."""
    if text == due:
        return []
    pairs = list(zip(text.splitlines() + ["nothing"], due.splitlines() + ["nothing"]))
    return [f"the service says {said}, and {wanted} is due" for said, wanted in pairs if said != wanted][:5] or ["other lengths"]


def check_crowd(program: str, folder: pathlib.Path, connections: int) -> List[str]:
    """Serves so many peers at once; prints what came of them, and gives what was found."""
    holders = min(PROVERS, connections)
    room = CrowdRoom(program, folder / "crowd", AND, connections, holders)
    words = ["x.verifier", "circuit", room.outputs, "--sessions", str(connections), "--workers", str(WORKERS)]
    service = Service(room.program, room.folder, words)
    watch = Watch(service)
    began = time.monotonic()
    with ThreadPoolExecutor(CALLERS) as pool:
        one = functools.partial(call, room, service, every=max(1, connections // max(1, holders)))
        came = list(pool.map(one, range(connections)))
    seconds = time.monotonic() - began
    findings = [each for each in came if isinstance(each, str)]
    met = [each for each in came if isinstance(each, Met)]
    if findings:
        service.kill()
    served = service.end()
    watch.join()
    spans = [(each.start, each.start + 1) for each in met if each.start is not None]
    if not findings:
        findings += differences(served.text, lines_of(met))
        status = 4 if any("link" in each.line for each in met) else int(any("accepted" not in each.line for each in met))
        findings += [f"status {served.status}, and {status} is due"] * (served.status != status)
        findings += ["the journal says another ceiling"] * (room.ceiling() != room.ceiling_over(len(spans)))
    findings += ["a unit is granted twice"] * (not are_apart(spans))
    most = watch.first + (BYTES_BESIDE + BYTES_A_SESSION * connections) // 1024
    findings += [f"{watch.most} KB were resident, above {most}"] * (watch.most > most)
    report(met, spans, watch, seconds)
    return findings


def report(met: List[Met], spans: List[Tuple[int, int]], watch: Watch, seconds: float) -> None:
    kinds = {kind: sum(each.kind == kind for each in met) for kind in ["prove", *KINDS]}
    accepted = sum("accepted" in each.line for each in met)
    print("peers: " + ", ".join(f"{kind} {count}" for kind, count in kinds.items()))
    print(f"{len(met)} peers in {seconds:.0f} seconds, {len(spans)} with a unit, {accepted} accepted, no unit granted twice")
    print(f"resident: {watch.first} KB as it began to listen, {watch.most} KB at most", flush=True)
