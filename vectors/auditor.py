"""What an audit says of a session's log, computed apart from the program that is tested against it.

The log is read frame by frame, each at the place that those before it leave: the first byte after which no allowed frame can follow is
its fault, or the last byte of a frame that files, statement and earlier frames do not give. Of a whole accepted log the wires are worked
out from the prover's dealt values and the corrections, and so the first section with a wrong product, the first wrong output, or the
inputs.
"""
import struct
from typing import List, Tuple

from chacha import word
from common import FILE_ID, KEY, P, VERIFIER_COINS, dealt_correlations, dealt_transfers, from_word, sha256
from ends import (
    CHALLENGE,
    GRANT,
    MOST_UNITS,
    VERDICT,
    Job,
    Place,
    ask_place,
    element_place,
    first_bad,
    judge,
    keys_of,
    read_elements,
    reply_of,
    reply_place,
    still_wanted,
)
from session import LONG, Extended, coded


class Answered(Exception):
    """An audit has answered so."""


class Reader:
    """A log that is read from its first byte on."""

    def __init__(self, log: bytes):
        self.log, self.at = log, 0

    def take(self, place: Place) -> bytes:
        """The whole frame at a place."""
        data = b""
        while True:
            want = still_wanted(place, data)
            if want == 0:
                self.at += len(data)
                return data
            piece = self.log[self.at + len(data) :][:want]
            if not piece:
                raise Answered("not-accepted")
            data += piece
            bad = first_bad(place, data)
            if bad is not None:
                raise Answered(f"fault:{self.at + bad}")

    def given(self, is_given: bool) -> None:
        """Whether the frame that was taken last is given."""
        if not is_given:
            raise Answered(f"fault:{self.at - 1}")

    def end(self, answer: str) -> None:
        """No frame may follow."""
        raise Answered(answer if self.at == len(self.log) else f"fault:{self.at}")


def is_hello_for(job: Job, data: bytes) -> bool:
    version = job.claim.version(len(data) > 102)
    said = data[37:101] + (data[102:] or sha256(b""))
    return data[5:37] == FILE_ID and data[101] == version and said == job.digests()


def is_grant(job: Job, start: int, count: int, section: int) -> bool:
    return 1 <= section <= LONG and count == job.units(section) <= MOST_UNITS and start + count <= job.total


def values_after(params: Extended, unit: int, ask: bytes) -> List[int]:
    """The prover's values of a unit, as its file and the ask fix them: on each level the path to the hidden place takes the side that was
    not chosen, and the choice is what was asked less the bit that was dealt."""
    dealt = [c.x for c in dealt_correlations(unit, params.base + params.trees)]
    bits = [bit for _, bit in dealt_transfers(unit, params.trees * params.height)]
    noise, size = [], params.height + 8
    for i in range(params.trees):
        part, place = ask[5 + i * size : 5 + (i + 1) * size], 0
        for asked, bit in zip(part, bits[i * params.height :][: params.height]):
            place = 2 * place + (1 - (asked ^ bit))
        [difference] = struct.unpack("<Q", part[params.height :])
        noise += [(dealt[params.base + i] + difference) % P if j == place else 0 for j in range(2**params.height)]
    return coded(params, dealt[: params.base], noise)


def combined(errors: List[int], challenge: int) -> int:
    return sum(e * pow(challenge, j, P) for j, e in enumerate(errors, 1)) % P


def root(name: str, coefficients: List[int]) -> str:
    return ":".join([name, *(str(c % P) for c in coefficients)])


def finding(job: Job, pairs: List[Tuple[int, int]], corrections: List[int], challenge: int, sums: List[int], macs: List[int]) -> str:
    """What an accepted session shows. With keys m + x key the two sides of a section's check differ by a polynomial in the key, whose
    last coefficient is its errors under the challenge."""
    products = job.claim.products()
    fixed = [(x + d) % P for (x, _), d in zip(pairs, corrections)]
    given = [m for _, m in pairs[: len(fixed)]]
    values, tags = job.claim.carried(fixed, 1), job.claim.carried(given, 0)
    for s, first in enumerate(range(0, len(products), job.section)):
        part = products[first : first + job.section]
        errors = [(values[a] * values[b] - fixed[i]) % P for a, b, i in part]
        if any(errors):
            if combined(errors, challenge) == 0:
                return root(f"challenge-root:{s}", [0, *errors])
            linear, constant = pairs[len(given) + s]
            for j, (a, b, i) in enumerate(part, 1):
                power = pow(challenge, j, P)
                constant += power * tags[a] * tags[b]
                linear += power * (values[a] * tags[b] + values[b] * tags[a] - given[i])
            return root("key-root", [constant - sums[2 * s], linear - sums[2 * s + 1], combined(errors, challenge)])
    for (wire, value), mac in zip(job.opened(), macs):
        if values[wire] != value:
            return root("key-root", [tags[wire] - mac, values[wire] - value])
    return f"inputs:{job.claim.private_word(values)}"


def audited(job: Job, reader: Reader) -> None:
    reader.given(is_hello_for(job, reader.take(job.hello_place())))
    answer = reader.take(GRANT)
    if answer[0] == 10:
        reader.end("not-accepted")
    start, count, section = struct.unpack("<QII", answer[5:])
    reader.given(is_grant(job, start, count, section))
    job = job._replace(section=section)
    units, params = range(start, start + count), job.params
    if params is None:
        dealt = [c for unit in units for c in dealt_correlations(unit, 64)]
        keys, pairs = [c.k for c in dealt], [(c.x, c.m) for c in dealt]
    else:
        asks = [reader.take(ask_place(params)) for _ in units]
        replies = []
        for unit, ask in zip(units, asks):
            replies.append(reader.take(reply_place(params)))
            reader.given(replies[-1] == reply_of(params, unit, ask))
        keys = [key for unit in units for key in keys_of(params, unit)]
        seen = [value for unit, ask in zip(units, asks) for value in values_after(params, unit, ask)]
        pairs = [(value, (key - value * KEY) % P) for value, key in zip(seen, keys)]
    corrections = read_elements(reader.take(element_place(5, job.claim.givens())))
    challenge = read_elements(reader.take(CHALLENGE))[0]
    reader.given(challenge == from_word(word(VERIFIER_COINS, 4 * start + 1, 0)))
    sums = read_elements(reader.take(element_place(7, 2 * -(-len(job.claim.products()) // section))))
    macs = read_elements(reader.take(element_place(8, len(job.opened()))))
    verdict, number = struct.unpack("<BI", reader.take(VERDICT)[5:])
    given = [(k + d * KEY) % P for k, d in zip(keys, corrections)]
    reader.given((verdict, number) == judge(job, keys, given, challenge, sums, macs)[:2])
    if verdict != 0:
        reader.end("not-accepted")
    reader.end(finding(job, pairs, corrections, challenge, sums, macs))


def audit(job: Job, log: bytes) -> str:
    """The answer about a log, whose reading is over files of the job's units."""
    reader = Reader(log)
    try:
        audited(job, reader)
    except Answered as answered:
        return str(answered)
    assert False
