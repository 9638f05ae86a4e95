"""A prover that is told the verifier's key and coins, and so makes the verifier accept what is not so.

Its session is over files of one direct unit, in one section. `docs/CLI.md` says which root an audit then finds.
"""
from typing import List, NamedTuple

from chacha import word
from common import KEY, P, VERIFIER_COINS, dealt_correlations, element, elements, frame, from_word
from ends import Job, Link, verify

CHALLENGE_COIN = from_word(word(VERIFIER_COINS, 1, 0))


class Told(NamedTuple):
    """It fixes these given values, and sends what meets the checks but for `spoilt`."""

    job: Job
    fixed: List[int]
    spoilt: int = 0

    def sent(self) -> bytes:
        job, claim, count = self.job, self.job.claim, len(self.fixed)
        dealt = dealt_correlations(0, 64)
        values, tags = claim.carried(self.fixed, 1), claim.carried([c.m for c in dealt[:count]], 0)
        constant, linear, last = dealt[count].m, dealt[count].x, 0
        for j, (a, b, i) in enumerate(claim.products(), 1):
            power = pow(CHALLENGE_COIN, j, P)
            constant += power * tags[a] * tags[b]
            linear += power * (values[a] * tags[b] + values[b] * tags[a] - dealt[i].m)
            last += power * (values[a] * values[b] - self.fixed[i])
        macs = [(tags[wire] + (values[wire] - value) * KEY) % P for wire, value in job.opened()]
        corrections = [(value - c.x) % P for value, c in zip(self.fixed, dealt)]
        sums = element((constant + self.spoilt) % P) + element((linear + last * KEY) % P)
        return job.hello() + frame(5, elements(corrections)) + frame(7, sums) + frame(8, elements(macs))

    def log(self) -> bytes:
        """The log of its session."""
        return b"".join(data for _, data in verify(self.job, Link(self.sent()))[1].log)
