"""ChaCha20 of 20 rounds in its first form (Bernstein, ChaCha, a variant of Salsa20, 2008), with a block counter and a stream
number of 64 bits each. A stream's words of 32 bits are counted through its blocks from 0, as the crate rand_chacha counts
them, and two of them make a coin of 64 bits."""
import functools
import struct


@functools.lru_cache(maxsize=1024)
def chacha_block(key, counter, stream):
    """The 16 words of a block."""
    start = list(struct.unpack("<4I", b"expand 32-byte k")) + list(struct.unpack("<8I", key))
    start += list(struct.unpack("<4I", struct.pack("<QQ", counter, stream)))
    w = start[:]

    def add_xor_rotate(a, b, c, bits):
        w[a] = (w[a] + w[b]) % 2**32
        w[c] ^= w[a]
        w[c] = (w[c] << bits | w[c] >> (32 - bits)) % 2**32

    columns = [(0, 4, 8, 12), (1, 5, 9, 13), (2, 6, 10, 14), (3, 7, 11, 15)]
    diagonals = [(0, 5, 10, 15), (1, 6, 11, 12), (2, 7, 8, 13), (3, 4, 9, 14)]
    for _ in range(10):
        for a, b, c, d in columns + diagonals:
            add_xor_rotate(a, b, d, 16)
            add_xor_rotate(c, d, b, 12)
            add_xor_rotate(a, b, d, 8)
            add_xor_rotate(c, d, b, 7)
    return [(x + y) % 2**32 for x, y in zip(w, start)]


# The first words of the published vector for a key of zeros, block 0 of stream 0.
assert chacha_block(bytes(32), 0, 0)[:4] == list(struct.unpack("<4I", bytes.fromhex("76b8e0ada0f13d90405d6ae55386bd28")))


def word(key, stream, place):
    """Word `place` of 64 bits: words 2 * place (its low half) and 2 * place + 1 of the stream."""
    halves = [chacha_block(key, i // 16, stream)[i % 16] for i in (2 * place, 2 * place + 1)]
    return halves[0] + 2**32 * halves[1]
