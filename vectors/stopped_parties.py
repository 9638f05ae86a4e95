"""Sessions of which either side is killed at some moment, and started again over its journal.

In each round one `serve` meets holders that prove one session after another until it is over. It is
killed in half of the rounds, and two in five of the provers are: at times that are drawn from a fixed
seed, half of them counted from the first byte that the process writes to its journal. What is asked of a
round follows from the lines, the statuses, the logs and the journals of both sides before and after it.
"""
import functools
import pathlib
import random
import re
import time
from typing import List, NamedTuple, Optional, Tuple

from parties import AES, AES_BITS, GRANT_BYTES, HELLO_BYTES, SMALL, WIDE
from parties import DealtRoom, Room, Span, Subject, are_apart, check_honest
from processes import SECONDS, Process, Ran, Service, at_once
from published import ADDER, FIVE_GATES
from session_runs import CIRCUITS

SEED = 20
HOLDERS = 3
SESSIONS = 5
KILLED = -9
JOURNAL = "x.verifier.journal"


class Trial(NamedTuple):
    """What is served in so many rounds, in which kind of room, and the longest time until a kill."""

    subject: Subject
    kind: type
    rounds: int
    seconds: float


TRIALS = [
    Trial(Subject("gates", FIVE_GATES, "1101"), Room, 40, 0.006),
    Trial(Subject("adder", ADDER, "10" * 64, SMALL, 3), Room, 24, 0.008),
    Trial(Subject("aes", AES, AES_BITS, WIDE), DealtRoom, 24, 0.08),
    Trial(Subject("chain", CIRCUITS["chain.txt"], "10"), DealtRoom, 16, 0.04),
]


class Proof(NamedTuple):
    """A run of `prove`: who holds the file, what came of it, and the claims that it added to the journal."""

    holder: str
    ran: Ran
    claims: List[Span]


class Stop(NamedTuple):
    """So long after a process began, or after a journal is no longer as it was, if one is named."""

    seconds: float
    journal: Optional[str]


def drawn_stop(draw: random.Random, odds: float, longest: float, journal: str) -> Optional[Stop]:
    """When a process is killed, if it is: half of those that are, once their journal is written."""
    if draw.random() >= odds:
        return None
    if draw.random() < 0.5:
        return Stop(draw.uniform(0, longest), None)
    return Stop(draw.choice([0, 0, 0.0005, draw.uniform(0, longest)]), journal)


def end_after(room: Room, process: Process, stop: Optional[Stop], before: bytes) -> Ran:
    """What came of a process that is killed when this says, over a journal that was so."""
    if stop is not None:
        while stop.journal is not None and room.get(stop.journal) == before and not process.is_over():
            time.sleep(0.0001)
        time.sleep(stop.seconds)
        process.kill()
    return process.end()


def prove_on(room: Room, service: Service, holder: str, draw: random.Random, longest: float) -> List[Proof]:
    """Proves one session after another until the service is over."""
    proofs: List[Proof] = []
    bound = time.monotonic() + SECONDS
    name = f"{holder}.journal"
    while not service.is_over():
        assert time.monotonic() < bound, holder
        before, claims = room.get(name), room.claims(holder)
        stop = drawn_stop(draw, 0.4, longest, name)
        ran = end_after(room, room.proving(service.place(), holder), stop, before)
        after = room.claims(holder)
        assert after[: len(claims)] == claims, holder
        proofs.append(Proof(holder, ran, after[len(claims) :]))
    return proofs


def meet(room: Room, workers: int, draw: random.Random, longest: float) -> Tuple[Ran, List[Proof]]:
    """What came of a service and of those that called."""
    before = room.get(JOURNAL)
    service = room.service(SESSIONS, workers)
    stop = drawn_stop(draw, 0.5, SESSIONS * longest / 2, JOURNAL)
    draws = [random.Random(draw.random()) for _ in room.holders]
    proving = functools.partial(prove_on, room, service)
    calls = [functools.partial(proving, *given, longest) for given in zip(room.holders, draws)]
    ran, *found = at_once([functools.partial(end_after, room, service, stop, before), *calls])
    return ran, [proof for proofs in found for proof in proofs]


def check_proof(proof: Proof, size: int, is_killed: bool) -> None:
    """Whether a prover's line and status fit its claims. A service that lives ends what it granted."""
    (text, status), claims = proof.ran, proof.claims
    assert len(claims) <= 1 and all(end - start == size for start, end in claims), proof
    ended = re.fullmatch(r"peer ended (\d+)\n", text)
    if status == KILLED and not text:
        return
    if text.endswith("accepted\n"):
        assert [f"units {start}..{end} accepted\n" for start, end in claims] == [text], proof
        assert status in (0, KILLED), proof
    elif text == "failed door\n":
        assert status in (4, KILLED) and not claims, proof
    elif text == "failed link\n":
        assert status in (4, KILLED) and (is_killed or not claims), proof
    else:
        assert ended and status in (8, KILLED), proof
        assert (int(ended[1]) >= GRANT_BYTES) == bool(claims) and (is_killed or not claims), proof


LINE = re.compile(r"(?:no grant|units (\d+)\.\.(\d+)) (accepted|(?:broken )?(?:link|ended (\d+)))")


class Granted(NamedTuple):
    """A line of a service: its units, if there are any, the words after them, and the bytes that came."""

    span: Optional[Span]
    words: str
    came: int


def granted_of(line: str) -> Granted:
    found = LINE.fullmatch(line)
    assert found, line
    span = None if found[1] is None else (int(found[1]), int(found[2]))
    assert found[3] == "accepted" or found[3].startswith("broken") == (span is not None), line
    return Granted(span, found[3], int(found[4] or 0))


def check_lines(room: Room, ran: Ran, before: int) -> List[Granted]:
    """Checks the lines, the status, the logs and the ceiling of a service that has said what it did."""
    lines = [granted_of(line) for line in ran.text.splitlines()]
    spans = [line.span for line in lines if line.span]
    assert spans == [(before + i * room.size, before + (i + 1) * room.size) for i in range(len(spans))], ran
    assert len(lines) == SESSIONS and all(line.span for line in lines[: len(spans)]), ran
    if spans:
        assert room.ceiling() == max(before, room.ceiling_over(spans[-1][1])), ran
    else:
        assert room.ceiling() == before, ran
    statuses = [4 if "link" in line.words else int(line.words != "accepted") for line in lines]
    assert ran.status in (max(statuses), KILLED), ran
    for line in lines:
        assert line.span or "link" in line.words or line.came < HELLO_BYTES, line
        if line.span:
            is_whole, came = room.check_log(line.span[0])
            assert is_whole == (line.words == "accepted"), line
            room.check_audit(line.span[0], is_whole)
            assert "ended" not in line.words or came == line.came, line
    return lines


class Round(NamedTuple):
    """The spans that are known to be granted, whether the service was killed, and how many provers were."""

    spans: List[Span]
    is_killed: bool
    killed: int
    proofs: int


def check_round(room: Room, workers: int, draw: random.Random, longest: float) -> Round:
    """A round, and that all sides say the same of it."""
    before = room.ceiling()
    ran, proofs = meet(room, workers, draw, longest)
    for proof in proofs:
        check_proof(proof, room.size, ran.status == KILLED)
    claims = [claim for proof in proofs for claim in proof.claims]
    assert all(before <= start and end <= room.ceiling() for start, end in claims), (before, claims)
    assert all((start - before) % room.size == 0 for start, _ in claims), (before, claims)
    spans = claims
    if ran.text or ran.status != KILLED:
        lines = check_lines(room, ran, before)
        spans = [line.span for line in lines if line.span]
        accepted = {line.span for line in lines if line.words == "accepted"}
        said = {claim for proof in proofs if "accepted" in proof.ran.text for claim in proof.claims}
        assert said <= accepted <= set(claims) <= set(spans), (ran, proofs)
    killed = sum(proof.ran.status == KILLED for proof in proofs)
    return Round(spans, ran.status == KILLED, killed, len(proofs))


def check_trial(program: str, folder: pathlib.Path, trial: Trial, workers: List[int]) -> List[Round]:
    """All rounds of a trial, and then one honest session of each holder."""
    draw = random.Random(SEED)
    total = (trial.rounds + 1) * (SESSIONS * trial.subject.size() + 15)
    room = trial.kind(program, folder, trial.subject, total, HOLDERS)
    rounds = []
    for number in range(trial.rounds):
        rounds.append(check_round(room, workers[number % len(workers)], draw, trial.seconds))
    assert are_apart([span for each in rounds for span in each.spans]), trial
    check_honest(room, workers[-1])
    assert are_apart([claim for holder in room.holders for claim in room.claims(holder)]), trial
    return rounds


def check_stops(program: str, folder: pathlib.Path, workers: List[int]) -> str:
    """All trials; says how much was run and killed."""
    rounds: List[Round] = []
    for place, trial in enumerate(TRIALS):
        rounds += check_trial(program, folder / f"trial{place}", trial, workers)
    services, provers, proofs = (sum(each[i] for each in rounds) for i in (1, 2, 3))
    return f"{services} of {len(rounds)} services and {provers} of {proofs} provers killed"
