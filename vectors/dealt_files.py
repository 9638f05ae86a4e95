#!/usr/bin/env python3
"""Dealt files and new journals, computed apart from the program that is tested against them.

From a seed of 32 bytes 7 it makes both dealt files of kind direct (1 unit) and of kind extended (1 unit, 1 tree of
height 1, base 10), the same files in the second version, and journals with the id of that seed in which nothing is written yet, of two areas as they are dealt,
and of one area as they are migrated. Of each it prints how many
bytes it has, and in hex SHA-256 of the bytes: of a dealt file of all but its last 32, which are that digest.

It follows the formats of `docs/FORMATS.md`, with what `common.py` has of the field, coins and digests.
Run `python3 vectors/dealt_files.py`; `--many` makes both files of 65,536 direct units instead, the fewest that are dealt in the second
version, which takes some minutes of each processor, and compares them with `MANY_UNITS`.
"""
import hashlib
import struct
import sys
from collections import namedtuple
from multiprocessing import Pool

from common import (
    CODE_SEED,
    FILE_ID,
    KEY,
    PROVER_COINS,
    VERIFIER_COINS,
    dealt_correlations,
    dealt_transfers,
    element,
    sha256,
)

Params = namedtuple("Params", "kind height trees base total")
DIRECT = Params(kind=0, height=0, trees=0, base=0, total=1)
EXTENDED = Params(kind=1, height=1, trees=1, base=10, total=1)


# The magic word of each version, and the most units that its files have; up to so many units are dealt in the first version.
MAGIC = {1: b"WQSFILE1", 2: b"WQSFILE2"}
MOST_UNITS = {1: 2**32, 2: 2**40}
DEALT_AS_FIRST = 65_535


def header(side, params, coin_key, code_seed, version=None):
    version = version or (1 if params.total <= DEALT_AS_FIRST else 2)
    numbers = struct.pack("<BBBBIIIQ", side, params.kind, params.height, 0, params.trees, params.base, 0, params.total)
    return MAGIC[version] + numbers + FILE_ID + coin_key + code_seed


def sealed(data):
    return data + sha256(data)


def deal(params, version=None):
    """The prover's file and the verifier's, of the version in which so many units are dealt, or of another."""
    code_seed = CODE_SEED if params.kind == 1 else bytes(32)
    count = params.base + params.trees if params.kind == 1 else 64
    prover = header(0, params, PROVER_COINS, code_seed, version)
    verifier = header(1, params, VERIFIER_COINS, code_seed, version) + element(KEY)
    for unit in range(params.total):
        for x, m, k in dealt_correlations(unit, count):
            prover += element(x) + element(m)
            verifier += element(k)
        for pads, bit in dealt_transfers(unit, params.trees * params.height):
            prover += bytes([bit]) + pads[bit]
            verifier += pads[0] + pads[1]
    return sealed(prover), sealed(verifier)


def direct_blocks(unit):
    """The blocks of a direct unit in both files."""
    dealt = dealt_correlations(unit, 64)
    dealt_correlations.cache_clear()
    return b"".join(element(x) + element(m) for x, m, _ in dealt), b"".join(element(k) for _, _, k in dealt)


def many_units(total):
    """How many bytes both files of so many direct units have, and the digests at their ends."""
    params = DIRECT._replace(total=total)
    prover, verifier = (hashlib.sha256(header(side, params, coins, bytes(32))) for side, coins in enumerate((PROVER_COINS, VERIFIER_COINS)))
    verifier.update(element(KEY))
    with Pool() as pool:
        for block, keys in pool.imap(direct_blocks, range(total), 256):
            prover.update(block)
            verifier.update(keys)
    return (160 + 1024 * total, prover.hexdigest()), (168 + 512 * total, verifier.hexdigest())


# Of the prover's and the verifier's file of 65,536 direct units, as `--many` makes them: how many bytes they have, and SHA-256 of all but
# the last 32, which are that digest.
MANY_UNITS = (
    (67_109_024, "491bff85d2b08df875554093e1ae33cd2eb11d3fcea9146d47f2d40628bad7cd"),
    (33_554_600, "99ce4ab17968a5dac732553bdb839681f9991214055a51ef34b327dbfdbddbb3"),
)


def one_area(kind, total, slots=None, gate=0):
    """A journal of one area of the prover's claims (0) or of the verifier's ceilings (1) that says nothing, with this gate of its migration."""
    if slots is None:
        slots = -(-total // 16) if kind == 1 else min(total, 4096)
    front = b"WQSJRNL1" + bytes([kind]) + bytes(6) + bytes([gate])
    return front + struct.pack("<QQ", total, slots) + FILE_ID + bytes(32 * slots)


def area(generation, bodies, slots):
    """An area of so many slots, the first of which have these bodies; its head is closed where the generation is 0."""
    head = struct.pack("<Q", generation) + bytes(23) + (b"\x5a" if generation else b"\0")
    opened = b"".join(struct.pack("<QQ", *body) + bytes(15) + b"\x5a" for body in bodies)
    return head + opened.ljust(32 * slots, b"\0")[: 32 * slots]


def own_slots(kind, total):
    """How many slots an area of a new journal has."""
    return min(-(-total // 16) if kind == 1 else total, 4096)


def header_of(kind, total, slots):
    """The header of a journal of two areas."""
    return b"WQSJRNL1" + bytes([2 + kind]) + bytes(7) + struct.pack("<QQ", total, slots) + FILE_ID


def journal(kind, total, slots=None):
    """A new journal of the prover's claims (0) or of the verifier's ceilings (1): two areas, the first of which is open."""
    slots = own_slots(kind, total) if slots is None else slots
    return header_of(kind, total, slots) + area(1, [], slots) + area(0, [], slots)


FILES = [
    ("direct, prover's file", deal(DIRECT)[0]),
    ("direct, verifier's file", deal(DIRECT)[1]),
    ("extended, prover's file", deal(EXTENDED)[0]),
    ("extended, verifier's file", deal(EXTENDED)[1]),
]
SECOND_VERSION = [
    ("direct, prover's file of the second version", deal(DIRECT, 2)[0]),
    ("direct, verifier's file of the second version", deal(DIRECT, 2)[1]),
    ("extended, prover's file of the second version", deal(EXTENDED, 2)[0]),
    ("extended, verifier's file of the second version", deal(EXTENDED, 2)[1]),
]
JOURNALS = [
    ("claims of 1 unit", journal(0, 1)),
    ("claims of 5,000 units", journal(0, 5000)),
    ("ceilings of 1 unit", journal(1, 1)),
    ("ceilings of 100 units", journal(1, 100)),
    ("ceilings of 70,000 units", journal(1, 70000)),
    ("one area of claims of 1 unit", one_area(0, 1)),
    ("one area of claims of 5,000 units", one_area(0, 5000)),
    ("one area of ceilings of 1 unit", one_area(1, 1)),
    ("one area of ceilings of 100 units", one_area(1, 100)),
]
assert [len(data) for _, data in FILES] == [1184, 680, 353, 288]
assert [len(data) for _, data in JOURNALS] == [192, 64 + 64 * 4097, 192, 576, 64 + 64 * 4097, 96, 64 + 32 * 4096, 96, 288]


def main():
    if "--many" in sys.argv[1:]:
        made = many_units(DEALT_AS_FIRST + 1)
        for name, (length, digest) in zip(("prover", "verifier"), made):
            print(f"65,536 direct units, {name}'s file: {length} bytes {digest}")
        assert made == MANY_UNITS
        return
    rows = [(text, len(data), data[-32:]) for text, data in FILES + SECOND_VERSION]
    for text, length, digest in rows + [(text, len(data), sha256(data)) for text, data in JOURNALS]:
        print(f"{text}: {length} bytes {digest.hex()}")


if __name__ == "__main__":
    main()
