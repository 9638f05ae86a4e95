"""Both ends of a session, computed apart from the program that is tested against them, whatever the peer sends.

An end has a link whose peer sends given bytes and then ends, in pieces of at most some length, and of whose calls one may fail, and one
may find no memory. What an end takes and sends, and how it ends, follows `docs/PROTOCOL.md`: each frame up to its first bad byte, what is compared, leased,
claimed and checked, in order. `session.py` has what honest ends say; what is shared is trees, the code and the circuit's program.
"""
import functools
import struct
from typing import Callable, Dict, List, NamedTuple, Optional, Tuple

from chacha import word
from common import (
    FILE_ID,
    KEY,
    P,
    PROVER_COINS,
    VERIFIER_COINS,
    dealt_correlations,
    dealt_transfers,
    element,
    elements,
    frame,
    from_word,
    sha256,
    words,
    xor,
)
from session import LONG, AnyClaim, ElementsClaim, Extended, coded, grown, leaf, punctured

MOST_UNITS = 4096
MOST_RECEIVED = 4096

# Who is asked for so many units: the first of them, or by which outcome they are refused.
Grant = Callable[[int], Tuple[int, Optional[str]]]

# Who is asked to claim so many units from one on: by which outcome they are refused.
Claimant = Callable[[int, int], Optional[str]]


class Job(NamedTuple):
    """What a session is about: the claim with the prover's inputs, the claimed outputs, the files and the length of sections."""

    claim: AnyClaim
    outputs: Tuple[int, ...]
    params: Optional[Extended]
    total: int
    section: int

    def need(self, section: int) -> int:
        """How many correlations a session with sections of this length takes."""
        return self.claim.givens() + -(-len(self.claim.products()) // section)

    def units(self, section: int) -> int:
        """How many units it takes."""
        size = 64 if self.params is None else self.params.trees * 2**self.params.height
        return max(1, -(-self.need(section) // size))

    def digests(self) -> bytes:
        return self.claim.digests(self.outputs)

    def hello(self) -> bytes:
        return self.claim.hello(self.outputs)

    def opened(self) -> List[Tuple[int, int]]:
        """The wires that are opened, each with what is claimed of it."""
        return self.claim.opened(self.outputs)

    def hello_place(self) -> "Place":
        """Hellos of both forms, or about an arithmetic circuit of one."""
        return ONE_HELLO if isinstance(self.claim, ElementsClaim) else HELLO


# ---- frames that a place allows


class Field(NamedTuple):
    """So many bytes of a payload, and whether they may stand there; and whether the first ones may, where that is judged before all came."""

    size: int
    holds: Callable[[bytes], bool]
    begins: Optional[Callable[[bytes], bool]] = None


def anything(size: int) -> Field:
    return Field(size, lambda _: True)


def code(low: int, high: int) -> Field:
    return Field(1, lambda part: low <= part[0] <= high)


ELEMENT = Field(8, lambda part: struct.unpack("<Q", part)[0] < P)

# The frames that a place allows: of each kind the fields of its payload.
Place = Dict[int, List[Field]]

ONE_HELLO: Place = {1: [anything(97)]}
HELLO: Place = {1: [anything(97)]}
LONG_HELLO: Place = {1: [anything(129)]}
GRANT: Place = {2: [anything(16)], 10: [code(1, 4)]}
CHALLENGE: Place = {6: [ELEMENT]}
VERDICT: Place = {9: [code(0, 2), anything(4)]}


def ask_place(params: Extended) -> Place:
    return {3: ([code(0, 1)] * params.height + [ELEMENT]) * params.trees}


def reply_place(params: Extended) -> Place:
    return {4: [anything(32 * params.height), ELEMENT] * params.trees}


def element_place(kind: int, count: int) -> Place:
    return {kind: [ELEMENT] * count}


def payload_length(fields: List[Field]) -> int:
    return sum(field.size for field in fields)


def form_of(place: Place, data: bytes) -> Place:
    """The same place, but that of the long form where the length of a hello begins so."""
    return LONG_HELLO if place is HELLO and data[1:2] == bytes([129]) else place


def still_wanted(place: Place, data: bytes) -> int:
    """How many bytes of the frame under way are still wanted: those up to the byte that decides, where one does."""
    if place is HELLO and len(data) < 2:
        return 2 - len(data)
    if not data and len(place) > 1:
        return 1
    place = form_of(place, data)
    fields = place[data[0]] if data else next(iter(place.values()))
    return 5 + payload_length(fields) - len(data)


def first_bad(place: Place, data: bytes) -> Optional[int]:
    """The place of the first byte after which no frame that is allowed can follow."""
    if data[0] not in place:
        return 0
    place = form_of(place, data)
    fields = place[data[0]]
    for i, byte in enumerate(struct.pack("<I", payload_length(fields)), 1):
        if data[i : i + 1] not in (b"", bytes([byte])):
            return i
    at = 5
    for field in fields:
        part = data[at : at + field.size]
        for count in range(1, len(part) + 1) if field.begins else ():
            if not field.begins(part[:count]):
                return at + count - 1
        if len(part) < field.size:
            return None
        at += field.size
        if not field.holds(part):
            return at - 1
    return None


# ---- an end and its link


class Ended(Exception):
    """A session has ended so."""


class Link:
    """A link whose peer sends these bytes in such pieces, and of whose calls, from 1, those of these numbers fail and find no memory."""

    def __init__(self, script: bytes, piece: int = MOST_RECEIVED, failing: int = 0, lacking: int = 0):
        self.script, self.piece, self.failing, self.lacking = script, piece, failing, lacking
        self.sends = self.receives = self.faults = 0

    def begin(self) -> None:
        if self.sends + self.receives == self.failing:
            self.faults += 1
            raise Ended("link")
        if self.sends + self.receives == self.lacking:
            raise Ended("no-memory")

    def send(self) -> None:
        self.sends += 1
        self.begin()

    def receive(self, most: int) -> bytes:
        self.receives += 1
        self.begin()
        most = min(most, self.piece)
        taken, self.script = self.script[:most], self.script[most:]
        return taken


class End:
    """One end, `p` the prover's or `v` the verifier's, with its log: runs of a side and its bytes."""

    def __init__(self, side: str, link: Link):
        self.side, self.link = side, link
        self.log: List[Tuple[str, bytes]] = []
        self.received = 0
        self.asked = self.units = "none"
        self.statement = "none"

    def note(self, side: str, data: bytes) -> None:
        if not data:
            return
        before = b""
        if self.log and self.log[-1][0] == side:
            before = self.log.pop()[1]
        self.log.append((side, before + data))

    def send(self, data: bytes) -> None:
        self.link.send()
        self.note(self.side, data)

    def take(self, place: Place) -> bytes:
        """The whole frame that comes at a place."""
        peer, start, data = "pv"[self.side == "p"], self.received, b""
        while True:
            want = still_wanted(place, data)
            if want == 0:
                return data
            piece = self.link.receive(min(want, MOST_RECEIVED))
            if not piece:
                raise Ended(f"peer-ended at={self.received}")
            self.note(peer, piece)
            self.received += len(piece)
            data += piece
            bad = first_bad(place, data)
            if bad is not None:
                raise Ended(f"bad-frame place={start + bad}")

    def refuse(self, number: int, outcome: str) -> None:
        """Sends a refusal, whatever comes of it, and ends so."""
        try:
            self.send(frame(10, bytes([number])))
        except Ended:
            pass
        raise Ended(outcome)

    def sent(self) -> bytes:
        return b"".join(data for side, data in self.log if side == self.side)


# ---- extended units


def sides_of(height: int, place: int) -> List[int]:
    """The sides of the path to a place, from the top down."""
    return [(place >> (height - 1 - level)) % 2 for level in range(height)]


def choices(params: Extended, unit: int) -> List[Tuple[int, int]]:
    """The hidden place and the noise of each tree."""
    stream = 4 * unit + 2
    return [
        (word(PROVER_COINS, stream, 2 * i) % 2**params.height, from_word(word(PROVER_COINS, stream, 2 * i + 1)))
        for i in range(params.trees)
    ]


def ask_of(params: Extended, unit: int) -> bytes:
    pairs = dealt_correlations(unit, params.base + params.trees)[params.base :]
    bits = [bit for _, bit in dealt_transfers(unit, params.trees * params.height)]
    payload = b""
    for i, (place, noise) in enumerate(choices(params, unit)):
        sides = sides_of(params.height, place)
        payload += bytes(bits[i * params.height + level] ^ 1 ^ side for level, side in enumerate(sides))
        payload += element((noise - pairs[i].x) % P)
    return frame(3, payload)


@functools.lru_cache(maxsize=None)
def trees_of(params: Extended, unit: int) -> List[List[List[bytes]]]:
    """The levels of each of the verifier's trees."""
    return [grown(words(VERIFIER_COINS, 4 * unit, 2 * i, 2), params.height) for i in range(params.trees)]


def reply_of(params: Extended, unit: int, ask: bytes) -> bytes:
    pairs = dealt_correlations(unit, params.base + params.trees)[params.base :]
    pads = [both for both, _ in dealt_transfers(unit, params.trees * params.height)]
    payload, size = b"", params.height + 8
    for i, rows in enumerate(trees_of(params, unit)):
        part = ask[5 + i * size : 5 + (i + 1) * size]
        for level in range(params.height):
            sums = [functools.reduce(xor, rows[level + 1][side::2], bytes(16)) for side in (0, 1)]
            given = pads[i * params.height + level]
            payload += b"".join(xor(sums[side], given[side ^ part[level]]) for side in (0, 1))
        difference = struct.unpack("<Q", part[params.height :])[0]
        payload += element((pairs[i].k + difference * KEY - sum(map(leaf, rows[-1]))) % P)
    return frame(4, payload)


@functools.lru_cache(maxsize=None)
def keys_of(params: Extended, unit: int) -> List[int]:
    """The verifier's keys of a unit."""
    base = [c.k for c in dealt_correlations(unit, params.base + params.trees)[: params.base]]
    return coded(params, base, [leaf(node) for rows in trees_of(params, unit) for node in rows[-1]])


def pairs_of(params: Extended, unit: int, reply: bytes) -> List[Tuple[int, int]]:
    """The prover's values and MACs of a unit, from a reply."""
    correlations = dealt_correlations(unit, params.base + params.trees)
    given = dealt_transfers(unit, params.trees * params.height)
    values: List[int] = []
    macs: List[int] = []
    size = 32 * params.height + 8
    for i, (place, noise) in enumerate(choices(params, unit)):
        part = reply[5 + i * size : 5 + (i + 1) * size]
        sums = []
        for level, side in enumerate(sides_of(params.height, place)):
            message = part[32 * level + 16 * (1 - side) :][:16]
            pads, bit = given[i * params.height + level]
            sums.append(xor(message, pads[bit]))
        found = punctured(params.height, place, sums)
        offset = struct.unpack("<Q", part[32 * params.height :])[0]
        hidden = (correlations[params.base + i].m - offset - sum(found)) % P
        values += [noise if j == place else 0 for j in range(2**params.height)]
        macs += [hidden if j == place else v for j, v in enumerate(found)]
    base = correlations[: params.base]
    values = coded(params, [c.x for c in base], values)
    return list(zip(values, coded(params, [c.m for c in base], macs)))


# ---- the verifier


def read_elements(data: bytes) -> List[int]:
    """The elements of a frame."""
    return [x for (x,) in struct.iter_unpack("<Q", data[5:])]


def take_statement(end: End, jobs: List[Job], got: bytes) -> Job:
    """The first of these that a hello is for; a hello for none is refused as that of the first would be."""
    came = got[5:37]
    if came != FILE_ID:
        end.refuse(1, f"bad-hello id want={FILE_ID.hex()} got={came.hex()}")
    version = jobs[0].claim.version(len(got) > 102)
    if got[101] != version:
        end.refuse(1, f"bad-hello version want={version} got={got[101]}")
    said = got[37:101] + (got[102:] or sha256(b""))
    for number, job in enumerate(jobs):
        if said == job.digests():
            end.statement = str(number)
            return job
    end.refuse(1, f"bad-hello statement want={jobs[0].digests().hex()} got={said.hex()}")
    assert False


def lease(end: End, job: Job, grant: Grant) -> Tuple[int, int]:
    """The first unit that is leased, and how many are."""
    count = job.units(job.section)
    end.asked = str(count)
    start, refusal = grant(count)
    if refusal is None and start + count > job.total:
        refusal = f"exhausted at={start} count={count} total={job.total}"
    if refusal is not None:
        end.refuse({"exhausted": 2, "no-memory": 4}.get(refusal.split(" ")[0], 3), refusal)
    end.units = f"{start}..{start + count}"
    end.send(frame(2, struct.pack("<QII", start, count, job.section)))
    return start, count


def take_keys(end: End, job: Job, start: int, count: int) -> List[int]:
    """The keys of the correlations of these units."""
    units = range(start, start + count)
    params = job.params
    if params is None:
        return [c.k for unit in units for c in dealt_correlations(unit, 64)]
    asks = [end.take(ask_place(params)) for _ in units]
    end.send(b"".join(reply_of(params, unit, ask) for unit, ask in zip(units, asks)))
    return [key for unit in units for key in keys_of(params, unit)]


def judge(job: Job, dealt_keys: List[int], given: List[int], challenge: int, sums: List[int], macs: List[int]):
    """The code and the number of a verdict, and the outcome."""
    products = job.claim.products()
    keys = job.claim.carried(given, KEY)
    for s, first in enumerate(range(0, len(products), job.section)):
        left = dealt_keys[len(given) + s]
        for j, (a, b, i) in enumerate(products[first : first + job.section], 1):
            left += pow(challenge, j, P) * (keys[a] * keys[b] - given[i] * KEY)
        left, right = left % P, (sums[2 * s] + sums[2 * s + 1] * KEY) % P
        if left != right:
            return 1, s, f"rejected-sum section={s} left={left} right={right}"
    for o, ((wire, value), mac) in enumerate(zip(job.opened(), macs)):
        left, right = keys[wire], (mac + value * KEY) % P
        if left != right:
            return 2, o, f"rejected-opening output={o} left={left} right={right}"
    return 0, 0, "accepted"


def verify_steps(end: End, jobs: List[Job], grant: Grant) -> None:
    job = take_statement(end, jobs, end.take(jobs[0].hello_place()))
    start, count = lease(end, job, grant)
    keys = take_keys(end, job, start, count)
    corrections = read_elements(end.take(element_place(5, job.claim.givens())))
    given = [(k + d * KEY) % P for k, d in zip(keys, corrections)]
    challenge = from_word(word(VERIFIER_COINS, 4 * start + 1, 0))
    end.send(frame(6, element(challenge)))
    sums = read_elements(end.take(element_place(7, 2 * -(-len(job.claim.products()) // job.section))))
    macs = read_elements(end.take(element_place(8, len(job.opened()))))
    verdict, number, outcome = judge(job, keys, given, challenge, sums, macs)
    end.send(frame(9, struct.pack("<BI", verdict, number)))
    raise Ended(outcome)


def verify_by(jobs: List[Job], link: Link, grant: Grant) -> Tuple[str, End]:
    """How a verifier's session about one of these ends that asks this for its units."""
    end = End("v", link)
    try:
        verify_steps(end, jobs, grant)
    except Ended as ended:
        return str(ended), end
    assert False


def verify(job: Job, link: Link, start: int = 0, refusal: Optional[str] = None, before: Tuple[Job, ...] = ()) -> Tuple[str, End]:
    """How a verifier's session ends whose units are leased from this one on, or refused by this outcome."""
    return verify_by([*before, job], link, lambda count: (start, refusal))


# ---- the prover


def take_grant(end: End, job: Job) -> Tuple[int, int, int]:
    data = end.take(GRANT)
    if data[0] == 10:
        raise Ended(f"peer-refused code={data[5]}")
    start, count, section = struct.unpack("<QII", data[5:])
    if not 1 <= section <= LONG or count != job.units(section) or count > MOST_UNITS:
        raise Ended("bad-grant")
    return start, count, section


def claim_units(end: End, claim: Claimant, start: int, count: int) -> None:
    end.asked = f"{start}+{count}"
    refusal = claim(start, count)
    if refusal is not None:
        raise Ended(refusal)
    end.units = f"{start}..{start + count}"


def take_pairs(end: End, job: Job, start: int, count: int) -> List[Tuple[int, int]]:
    """The values and MACs of the correlations of these units."""
    units = range(start, start + count)
    params = job.params
    if params is None:
        return [(c.x, c.m) for unit in units for c in dealt_correlations(unit, 64)]
    end.send(b"".join(ask_of(params, unit) for unit in units))
    replies = [end.take(reply_place(params)) for _ in units]
    return [pair for unit, reply in zip(units, replies) for pair in pairs_of(params, unit, reply)]


def answers(job: Job, section: int, pairs: List[Tuple[int, int]], challenge: int) -> bytes:
    """The frames of sums and openings."""
    claim, products = job.claim, job.claim.products()
    given = [m for _, m in pairs[: claim.givens()]]
    w, m = claim.values(), claim.carried(given, 0)
    sums = []
    for s, first in enumerate(range(0, len(products), section)):
        v, u = pairs[len(given) + s]
        for j, (a, b, i) in enumerate(products[first : first + section], 1):
            power = pow(challenge, j, P)
            u += power * m[a] * m[b]
            v += power * (w[a] * m[b] + w[b] * m[a] - given[i])
        sums += [u % P, v % P]
    return frame(7, elements(sums)) + frame(8, elements(m[wire] for wire, _ in job.opened()))


def prove_steps(end: End, job: Job, claim: Claimant) -> None:
    end.send(job.hello())
    start, count, section = take_grant(end, job)
    claim_units(end, claim, start, count)
    pairs = take_pairs(end, job, start, count)
    given = job.claim.given_values()
    end.send(frame(5, elements((value - x) % P for value, (x, _) in zip(given, pairs))))
    [challenge] = read_elements(end.take(CHALLENGE))
    end.send(answers(job, section, pairs, challenge))
    verdict, number = struct.unpack("<BI", end.take(VERDICT)[5:])
    raise Ended(f"rejected code={verdict} number={number}" if verdict else "accepted")


def prove_by(job: Job, link: Link, claim: Claimant) -> Tuple[str, End]:
    """How a prover's session ends that asks this for its units."""
    end = End("p", link)
    try:
        prove_steps(end, job, claim)
    except Ended as ended:
        return str(ended), end
    assert False


def prove(job: Job, link: Link, refusal: Optional[str] = None) -> Tuple[str, End]:
    """How a prover's session ends whose units are claimed, or refused by this outcome."""

    def claim(start: int, count: int) -> Optional[str]:
        is_above = start + count > job.total
        return f"out-of-range total={job.total}" if refusal is None and is_above else refusal

    return prove_by(job, link, claim)


def hold(job: Job, start: int = 0, before: Tuple[Job, ...] = ()) -> Tuple[bytes, bytes]:
    """What the prover and the verifier send in a session that they hold with each other."""
    by_prover = by_verifier = b""
    for _ in range(4):
        by_prover = prove(job, Link(by_verifier))[1].sent()
        by_verifier = verify(job, Link(by_prover), start, None, before)[1].sent()
    return by_prover, by_verifier
