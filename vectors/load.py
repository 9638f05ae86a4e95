#!/usr/bin/env python3
"""Load, kills and damaged files: many runs of the built program that are drawn from fixed seeds.

`python3 vectors/load.py PROGRAM [CONNECTIONS] [KILLS] [FILES]` does three things, each as often as it is told; with 0 it leaves
one out:

  - 10,000 connections to one `serve --workers 8`, by `crowd.py`: hostile ones, with honest provers of a script and runs of
    `prove` among them. Each line of the service is as computed apart, each honest prover is accepted, no unit is granted twice,
    and what is resident stays below a bound;
  - 1,000 kills of services and provers at moments that are drawn, with restarts over their journals, by `stopped_parties.py`: by
    lines, logs, audits and journals no unit is granted or claimed twice, and in the end of each room all holders prove once more;
  - 100,000 damaged files in the commands that read them, by `damaged.py`: no run is ended by a signal or hangs, and the answers
    are those that are computed apart.

It prints what was run and the first findings, and ends with 1 where there are any.
"""
import functools
import itertools
import pathlib
import random
import sys
import tempfile
from typing import Callable, List, Tuple

from crowd import check_crowd
from damaged import check_damaged
from dealt_files import Params, deal, journal
from parties import Room, are_apart, check_honest
from processes import end_all
from stopped_parties import HOLDERS, SESSIONS, TRIALS, Round, Trial, check_round

SEED = "kills"
COUNTS = [10_000, 1_000, 100_000]
WORKERS = [1, 2, 4, 8]
SHOWN = 5


@functools.lru_cache(maxsize=None)
def dealt(params: Params) -> Tuple[bytes, bytes]:
    return deal(params)


class KeptRoom(Room):
    """A room whose files are dealt once for all rooms of its kind."""

    def deal(self) -> None:
        for kind, name in enumerate(("x.prover", "x.verifier")):
            self.put(name, dealt(self.subject.kind._replace(total=self.total))[kind])
            self.put(f"{name}.journal", journal(kind, self.total))


def check_room(program: str, folder: pathlib.Path, trial: Trial, draw: random.Random) -> List[Round]:
    """The rounds of a trial, and an honest session of each holder."""
    total = (trial.rounds + 1) * (SESSIONS * trial.subject.size() + 15)
    kind = KeptRoom if trial.kind is Room else trial.kind
    room = kind(program, folder, trial.subject, total, HOLDERS)
    rounds = [check_round(room, draw.choice(WORKERS), draw, trial.seconds) for _ in range(trial.rounds)]
    assert are_apart([span for each in rounds for span in each.spans]), trial
    check_honest(room, WORKERS[-1])
    assert are_apart([claim for holder in room.holders for claim in room.claims(holder)]), trial
    return rounds


def check_kills(program: str, folder: pathlib.Path, wanted: int) -> List[str]:
    """Rooms of the trials in turn, until so many services and provers were killed."""
    rounds: List[Round] = []
    for place, trial in enumerate(itertools.cycle(TRIALS)):
        services, provers = sum(each.is_killed for each in rounds), sum(each.killed for each in rounds)
        if services + provers >= wanted:
            break
        draw = random.Random(f"{SEED} {place}")
        try:
            rounds += check_room(program, folder / f"room{place}", trial, draw)
        except AssertionError as wrong:
            return [f"kills, room {place} of {trial.subject.name}: {wrong}"]
    proofs = sum(each.proofs for each in rounds)
    killed = f"{services} of {len(rounds)} services and {provers} of {proofs} provers killed in {place} rooms"
    print(f"{killed}: no unit granted or claimed twice", flush=True)
    return []


Part = Callable[[str, pathlib.Path, int], List[str]]

PARTS: List[Part] = [check_crowd, check_kills, check_damaged]


def main() -> int:
    program = str(pathlib.Path(sys.argv[1]).resolve())
    given = [int(word) for word in sys.argv[2:5]]
    counts = given + COUNTS[len(given) :]
    print("seeds: crowd, kills, damaged", flush=True)
    findings: List[str] = []
    with tempfile.TemporaryDirectory() as name:
        try:
            for part, count in zip(PARTS, counts):
                findings += part(program, pathlib.Path(name), count) if count else []
        finally:
            end_all()
    for finding in findings[:SHOWN]:
        print(finding)
    print(f"{len(findings)} findings")
    return 1 if findings else 0


if __name__ == "__main__":
    sys.exit(main())
