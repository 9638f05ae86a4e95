#!/usr/bin/env python3
"""Runs of `migrate` that are killed at some moment, and run again over the same journal.

`stopped_migrations.py PROGRAM [ROUNDS]` deals one pair of files. In each round it lays a journal of one area for one of them, the
prover's with claims or the verifier's with ceilings, both drawn from a fixed seed, and runs `migrate` over it, which is killed some
microseconds after its start or after the file is no longer as it was, until a run is not. After each kill the file says the same units,
or the same ceiling, as before, by whichever journal its byte 15 names; after the last run it says them by the new one, whose bytes are
as computed here. The script prints one line, and ends with 0 only where all held.
"""
import pathlib
import random
import struct
import subprocess
import sys
import tempfile
import time
from typing import List, Tuple

from parties import slots_of
from program import merged

SEED = 5
UNITS = 4096
ROUNDS = 100
KILLED = -9
Body = Tuple[int, int]


def one_area(kind: int, file_id: bytes, slots: int, bodies: List[Body]) -> bytes:
    """A journal of one area that says these bodies."""
    front = b"WQSJRNL1" + bytes([kind]) + bytes(7) + struct.pack("<QQ", UNITS, slots) + file_id
    opened = b"".join(struct.pack("<QQ", *body) + bytes(15) + b"\x5a" for body in bodies)
    return front + opened.ljust(32 * slots, b"\0")


def drawn_bodies(draw: random.Random, kind: int) -> List[Body]:
    """Claims of which no two have a unit in common, in any order; or ceilings that rise."""
    count = draw.randrange(1, 250)
    if kind == 1:
        return [(16 * ceiling, 0) for ceiling in sorted(draw.sample(range(1, 257), count))]
    edges = sorted(draw.sample(range(UNITS + 1), 2 * count))
    spans = list(zip(edges[::2], edges[1::2]))
    draw.shuffle(spans)
    return spans


def said(kind: int, slots: int, data: bytes) -> List[Body]:
    """What the journal that byte 15 names says: the ranges of its claims, or its last ceiling."""
    end = 64 + 32 * slots
    if data[15] == 0x5A:
        bodies = slots_of(data[end:])
    else:
        opened = [data[at : at + 32] for at in range(64, end, 32) if data[at + 31] == 0x5A]
        bodies = [struct.unpack("<QQ", body[:16]) for body in opened]
    return merged(bodies) if kind == 0 else bodies[-1:]


def killed(words: List[str], file: pathlib.Path, draw: random.Random) -> bool:
    """Whether a run was killed before its end."""
    before = file.read_bytes()
    process = subprocess.Popen(words, stdout=subprocess.DEVNULL)
    if draw.random() < 0.7:
        while file.read_bytes() == before and process.poll() is None:
            pass
    time.sleep(draw.choice([0, 0, draw.uniform(0, 0.003)]))
    process.kill()
    return process.wait() == KILLED


def check_round(program: str, folder: pathlib.Path, draw: random.Random) -> int:
    """How many runs of a round were killed."""
    kind = draw.randrange(2)
    side = ["prover", "verifier"][kind]
    dealt, file = folder / f"x.{side}", folder / f"x.{side}.journal"
    slots, bodies = [UNITS, UNITS // 16][kind], drawn_bodies(draw, kind)
    file.write_bytes(one_area(kind, dealt.read_bytes()[32:64], slots, bodies))
    wanted = said(kind, slots, file.read_bytes())
    words, stops = [program, "migrate", side, str(dealt)], 0
    while draw.random() < 0.8 and file.read_bytes()[15] != 0x5A:
        stops += killed(words, file, draw)
        assert said(kind, slots, file.read_bytes()) == wanted, (bodies, stops)
    before = file.read_bytes()[15] == 0x5A
    ran = subprocess.run(words, stdout=subprocess.PIPE, check=True, text=True)
    assert ran.stdout == ("already migrated\n" if before else f"migrated {len(wanted)}\n"), ran.stdout
    data = file.read_bytes()
    opened = b"".join(struct.pack("<QQ", *body) + bytes(15) + b"\x5a" for body in wanted)
    at = 64 + 32 * slots + 96
    assert data[at : at + 32 * slots] == opened.ljust(32 * slots, b"\0") and said(kind, slots, data) == wanted, bodies
    return stops


def main() -> None:
    if len(sys.argv) not in (2, 3):
        sys.exit("stopped_migrations.py PROGRAM [ROUNDS]")
    program, rounds = sys.argv[1], int(sys.argv[2]) if len(sys.argv) == 3 else ROUNDS
    draw = random.Random(SEED)
    with tempfile.TemporaryDirectory() as name:
        subprocess.run([program, "deal", f"{name}/x", "--units", str(UNITS)], stdout=subprocess.DEVNULL, check=True)
        stops = sum(check_round(program, pathlib.Path(name), draw) for _ in range(rounds))
    print(f"{rounds} journals migrated, {stops} runs killed: each journal said the same at every stop")


if __name__ == "__main__":
    main()
