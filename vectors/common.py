"""What the scripts of this folder share: the field, coins, what is dealt from a seed, frames, and how constants are printed.

It rests on public definitions alone: ChaCha20, as `chacha.py` has it; the integers modulo 2^61 - 1; SHA-256, from hashlib. All
numbers have their low byte first. `docs/FORMATS.md` and `docs/PROTOCOL.md` say the same in prose.
"""
import functools
import hashlib
import struct
from typing import Iterable, List, NamedTuple, Tuple

from chacha import word

P = 2**61 - 1
SEED = bytes([7] * 32)


def words(key: bytes, stream: int, first: int, count: int) -> bytes:
    """So many words of a stream, as 8 bytes each."""
    return b"".join(struct.pack("<Q", word(key, stream, i)) for i in range(first, first + count))


def from_word(w: int) -> int:
    """The element of a word of 64 bits."""
    return w % 2**61 % P


def element(x: int) -> bytes:
    assert 0 <= x < P
    return struct.pack("<Q", x)


def elements(xs: Iterable[int]) -> bytes:
    return b"".join(map(element, xs))


def xor(a: bytes, b: bytes) -> bytes:
    return bytes(x ^ y for x, y in zip(a, b))


def sha256(data: bytes) -> bytes:
    return hashlib.sha256(data).digest()


def frame(kind: int, payload: bytes) -> bytes:
    """A byte of kind, the length of the payload as 4 bytes, and the payload."""
    return bytes([kind]) + struct.pack("<I", len(payload)) + payload


# What the seed gives beside units.
FILE_ID, PROVER_COINS, VERIFIER_COINS, CODE_SEED = (words(SEED, stream, 0, 4) for stream in range(4))
KEY = from_word(word(SEED, 4, 0)) or 1


class Correlation(NamedTuple):
    """A value, its MAC and its key."""

    x: int
    m: int
    k: int


@functools.lru_cache(maxsize=None)
def dealt_correlations(unit: int, count: int) -> List[Correlation]:
    """The first correlations of a unit."""
    found = []
    for j in range(count):
        x, m = (from_word(word(SEED, 16 + 2 * unit, 2 * j + i)) for i in (0, 1))
        found.append(Correlation(x, m, (m + x * KEY) % P))
    return found


@functools.lru_cache(maxsize=None)
def dealt_transfers(unit: int, count: int) -> List[Tuple[List[bytes], int]]:
    """The first transfers of a unit: both pads, and the bit."""
    stream = 17 + 2 * unit
    return [
        ([words(SEED, stream, 5 * i + 2 * side, 2) for side in (0, 1)], word(SEED, stream, 5 * i + 4) % 2)
        for i in range(count)
    ]


def print_rust(name: str, data: bytes) -> None:
    """Bytes as a constant of a test."""
    print(f"pub const {name}: [u8; {len(data)}] = [")
    for i in range(0, len(data), 16):
        print("    " + ", ".join(f"0x{b:02x}" for b in data[i : i + 16]) + ",")
    print("];\n")
