#!/usr/bin/env python3
"""Values of one session, computed apart from the program that is tested against them.

From a seed of 32 bytes 7 it computes, and prints in hex:
  - the dealt values of kind direct for one unit, and the verifier's challenge coin of unit 0;
  - the whole log of a session over them, for the circuit of one AND gate at the bits 11, sections of one product and
    a circuit digest of 32 zero bytes, frame by frame with the side that sends each.

`session.py` computes the session. Run `python3 vectors/and_gate.py`; `--rust` prints the log as the test's constants, and with it what
an honest prover sends in sessions over each of the first four units, of the digest of the circuit's text and in one section: its hello,
and what it sends after the grant, which `ends.py` computes.
"""
import sys

import bristol
from chacha import word
from common import FILE_ID, KEY, PROVER_COINS, VERIFIER_COINS, dealt_correlations, from_word, print_rust, sha256
from ends import Job, hold
from session import LONG, Claim, accepted

AND_GATE = b"1 3\n2 1 1\n1 1\n\n2 1 0 1 2 AND\n"
NAMES = {1: "Hello", 2: "Grant", 5: "Corrections", 6: "Challenge", 7: "Sums", 8: "Openings", 9: "Verdict"}


def log_frames():
    """The frames of the session, in order."""
    circuit = bristol.read(AND_GATE)
    assert isinstance(circuit, bristol.Circuit)
    return accepted(Claim(circuit, bytes(32), [1, 1]), None, 1)


def honest_parts():
    """What an honest prover sends over each of the first four units: the hello, which is one for all, and the rest."""
    circuit = bristol.read(AND_GATE)
    assert isinstance(circuit, bristol.Circuit)
    job = Job(Claim(circuit, sha256(AND_GATE), [1, 1]), (1,), None, 4, LONG)
    sent = [hold(job, start)[0] for start in range(4)]
    assert all(each[:102] == sent[0][:102] and len(each) == 165 for each in sent)
    return sent[0][:102], [each[102:] for each in sent]


def main() -> None:
    if sys.argv[1:] == ["--rust"]:
        hello, rests = honest_parts()
        print_rust("FILE_ID", FILE_ID)
        print_rust("AND_HELLO", hello)
        print_rust("AND_RESTS", b"".join(rests))
        return
    pairs = dealt_correlations(0, 64)
    print("id", FILE_ID.hex())
    print("prover's coin key", PROVER_COINS.hex())
    print("verifier's coin key", VERIFIER_COINS.hex())
    print(f"one key {KEY:#018x}")
    for j in (0, 1, 63):
        print(f"correlation {j}: x {pairs[j].x:#018x} m {pairs[j].m:#018x} key {pairs[j].k:#018x}")
    print(f"challenge coin of unit 0 {from_word(word(VERIFIER_COINS, 1, 0)):#018x}")
    for data in log_frames():
        side = "Prover" if data[0] in (1, 3, 5, 7, 8) else "Verifier"
        print(side, NAMES[data[0]], len(data), data.hex())


if __name__ == "__main__":
    main()
