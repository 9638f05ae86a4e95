#!/usr/bin/env python3
"""Runs `serve` and `prove`, and `serve-arith` and `prove-arith`, of the built program against each other over connections of this machine.

`python3 vectors/two_parties.py PROGRAM [WORKERS]` does this with 1, 2, 4 and 8 workers, or with so many:

  - honest sessions about every example circuit and some others, of both kinds, over files of both kinds,
    with eight provers at once: all are accepted, by the lines and the statuses of both sides, logs and
    journals are as computed apart, and an audit of each stored log finds its prover's inputs;
  - sessions that end in other ways, by `endings.py`: of these both sides' lines and statuses are
    computed apart too;
  - sessions of which either side is killed at a moment that is drawn from a fixed seed, again and again
    over one verifier's journal, by `stopped_parties.py`: no unit is granted or claimed twice, and all
    journals start again.

`parties.py` says who holds which file. The script prints one line, and ends with 0 only where all held.
It takes less than two minutes.
"""
import pathlib
import sys
import tempfile
from typing import List

from endings import check_endings
from common import P
from parties import AES, AES_BITS, BLOCK_BITS, BLOCK_FIRST, GE64, SMALL, TINY, WIDE, AnySubject, DealtRoom, ElementsSubject, Room, Subject, are_apart, check_honest
from processes import end_all
from published import ADDER, AND_GATE, BALANCES, ELEMENTS, FIVE_GATES, FOUR_GATES
from session_runs import CIRCUITS
from stopped_parties import check_stops
from stored_runs import arith_texts

HOLDERS = 8
ARITH = arith_texts()


def number(n: int) -> str:
    return f"{n:064b}"[::-1]


# Sessions whose files are dealt from the seed, and whose logs are known byte by byte.
KNOWN: List[AnySubject] = [
    Subject("and", AND_GATE, "11"),
    Subject("and", AND_GATE, "11", SMALL, 1),
    Subject("and of many units", AND_GATE, "10", TINY, 1),
    Subject("five gates", FIVE_GATES, "1101", section=3),
    Subject("five gates", FIVE_GATES, "0110", SMALL),
    Subject("adder", ADDER, number(5) + number(7)),
    Subject("adder", ADDER, number(2**64 - 1) + number(1), SMALL, 3),
    Subject("comparison", GE64, number(7) + number(5), section=100),
    Subject("comparison", GE64, number(5) + number(7), SMALL),
    Subject("no wires", CIRCUITS["no_wires.txt"], ""),
    Subject("no outputs", CIRCUITS["no_outputs.txt"], "1", TINY),
    ElementsSubject("four gates", FOUR_GATES, [3]),
    ElementsSubject("four gates", FOUR_GATES, [P - 3], TINY, 1),
    ElementsSubject("balances", BALANCES, ELEMENTS, section=50),
    ElementsSubject("balances", BALANCES, ELEMENTS, SMALL),
    ElementsSubject("two products", ARITH["arith_two_products.txt"], [P - 1, 2], SMALL, 1),
    ElementsSubject("no gates", ARITH["arith_no_gates.txt"], [0, P - 1]),
    ElementsSubject("no wires", ARITH["arith_empty.txt"], []),
    ElementsSubject("no outputs", ARITH["arith_no_outputs.txt"], [7, 8], TINY),
]

# Larger ones, whose files the program deals.
LARGE: List[AnySubject] = [
    Subject("aes", AES, AES_BITS),
    Subject("aes", AES, AES_BITS, WIDE, 1000),
    Subject("aes of a public block", BLOCK_FIRST, BLOCK_BITS, public=128),
    Subject("aes of a public block", BLOCK_FIRST, BLOCK_BITS, WIDE, 1000, public=128),
    Subject("chain", CIRCUITS["chain.txt"], "10"),
    Subject("chain", CIRCUITS["chain.txt"], "10", SMALL),
    ElementsSubject("chain of elements", ARITH["arith_chain.txt"], [P - 1, 2]),
    ElementsSubject("chain of elements", ARITH["arith_chain.txt"], [P - 1, 2], WIDE, 1000),
]


def check_rooms(program: str, folder: pathlib.Path, workers: List[int]) -> int:
    """Serves in each room with each number of workers, one after another over the room's journals."""
    sessions = 0
    for place, subject in enumerate(KNOWN + LARGE):
        kind = Room if place < len(KNOWN) else DealtRoom
        total = len(workers) * (HOLDERS * subject.size() + 15)
        room = kind(program, folder / f"room{place}", subject, total, HOLDERS)
        sessions += sum(check_honest(room, each) for each in workers)
        claims = [claim for holder in room.holders for claim in room.claims(holder)]
        assert are_apart(claims) and len(claims) == len(workers) * HOLDERS, claims
    return sessions


def main() -> int:
    program = str(pathlib.Path(sys.argv[1]).resolve())
    workers = [int(word) for word in sys.argv[2:3]] or [1, 2, 4, 8]
    with tempfile.TemporaryDirectory() as name:
        folder = pathlib.Path(name)
        try:
            honest = check_rooms(program, folder, workers)
            endings = check_endings(program, folder)
            stopped = check_stops(program, folder, workers)
        finally:
            end_all()
    print(f"{honest} honest sessions, {endings} other endings, {stopped}: no unit granted or claimed twice")
    return 0


if __name__ == "__main__":
    sys.exit(main())
