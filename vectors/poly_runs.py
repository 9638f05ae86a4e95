"""Runs of the program about polynomial constraints, whose peers are computed apart: words, and what each run is given.

`session_runs.py` has them behind its scenarios of any words. The file `values` has the values, and `calls` says what the peers send. What is
written stands in the crate's `stdout`: of an honest session its log must have the digest of the frames that are computed here.
"""
import struct
from typing import Callable, Dict, List, NamedTuple, Optional, Tuple

import polynomial
import stored_runs
from chacha import word
from common import KEY, P, VERIFIER_COINS, elements, frame, from_word, sha256
from session import LONG, Extended, correlations, sent_by_prover, sent_by_verifier

# The words of a run, and what it is given.
Row = Tuple[str, Dict[str, object]]

ONE_TREE = Extended(height=1, trees=1, base=10)
EIGHT_TREES = Extended(height=10, trees=8, base=64)


TEXTS = stored_runs.poly_texts()


class Subject(NamedTuple):
    """What runs are about: a text, values, files and the length of sections."""

    text: str
    values: List[int]
    params: Optional[Extended] = None
    section: int = LONG
    units: int = 1

    def constraints(self) -> polynomial.Constraints:
        read = polynomial.read(TEXTS[self.text])
        assert isinstance(read, polynomial.Constraints)
        return read

    def frames(self) -> List[bytes]:
        """All frames of a session of an honest prover, with the verdict."""
        constraints = self.constraints()
        need = constraints.variables + constraints.degree() - 1
        units, rounds, made = correlations(self.params, need, None)
        corrections = [(x - c.x) % P for x, c in zip(self.values, made)]
        pairs = [(x, c.m) for x, c in zip(self.values, made)]
        keys = [(c.k + d * KEY) % P for c, d in zip(made, corrections)]
        masks = made[constraints.variables : need]
        challenge = from_word(word(VERIFIER_COINS, 1, 0))
        sums = polynomial.sums(constraints, pairs, challenge, [(c.x, c.m) for c in masks])
        left = polynomial.left(constraints, keys, KEY, challenge, [c.k for c in masks])
        right = sum(w * pow(KEY, l, P) for l, w in enumerate(sums)) % P
        met = not any(constraints.values(self.values))
        assert (left == right) == met
        grant = frame(2, struct.pack("<QII", 0, units, self.section))
        verdict = frame(9, struct.pack("<BI", 0 if met else 1, 0))
        return [polynomial.hello(TEXTS[self.text]), grant, *rounds, frame(5, elements(corrections)), frame(6, elements([challenge])), frame(7, elements(sums)), verdict]

    def given(self) -> Dict[str, object]:
        words: Dict[str, object] = {"circuit": self.text, "units": self.units}
        if self.params is not None:
            words["files"] = f"{self.params.trees},{self.params.height},{self.params.base}"
        return {**words, "values": "+".join(map(str, self.values))}

    def serve(self, **given: object) -> Row:
        return f"serve-poly here x.verifier {self.text} --section {self.section} --sessions 1", {**self.given(), **given}

    def prove(self, **given: object) -> Row:
        return f"prove-poly here x.prover {self.text} values", {**self.given(), **given}


SQUARE = Subject("poly_square.txt", [3])
UNMET = Subject("poly_square.txt", [4])
CURVE = Subject("poly_curve.txt", [2, 2])


CHAIN = Subject("poly_chain.txt", stored_runs.poly_chain_values(), units=50)

SMALL = [
    SQUARE,
    Subject("poly_none.txt", []),
    Subject("poly_free.txt", [7, P - 1]),
    Subject("poly_constant.txt", []),
    Subject("poly_eight.txt", [2, 256]),
    Subject("poly_lifted.txt", [3]),
]


def both(subject: Subject, **given: object) -> List[Row]:
    """A service with an honest prover, and a proof to an honest verifier."""
    frames = subject.frames()
    to_service, to_proof = sent_by_prover(frames).hex(), sent_by_verifier(frames).hex()
    return [subject.serve(calls=to_service, **given), subject.prove(calls=to_proof, **given)]


def honest() -> List[Tuple[Subject, List[Row]]]:
    """Sessions that are accepted, over files of both kinds; the last of thousands of constraints."""
    subjects = [*SMALL, *(subject._replace(params=ONE_TREE, units=6, section=1) for subject in SMALL)]
    subjects += [SQUARE._replace(params=EIGHT_TREES), CHAIN, CHAIN._replace(params=EIGHT_TREES)]
    return [(subject, both(subject, show="disk")) for subject in subjects]


def others() -> List[Row]:
    """Values that meet no constraint, verdicts, hellos, and peers that end early."""
    met_by_none = Subject("poly_one.txt", [])
    found = [UNMET.prove(calls="00")] + [subject.serve(calls=sent_by_prover(subject.frames()).hex()) for subject in (UNMET, met_by_none)]
    # Any number behind an acceptance, and none but 0 behind a rejection.
    kept = sent_by_verifier(SQUARE.frames())[:-10]
    for code, number in ((0, 7), (1, 0), (1, 1), (2, 0)):
        found.append(SQUARE.prove(calls=(kept + frame(9, struct.pack("<BI", code, number))).hex()))
    sent = sent_by_prover(SQUARE.frames())
    other = polynomial.hello(TEXTS["poly_free.txt"])
    found += [SQUARE.serve(calls=(other + sent[102:]).hex()), SQUARE.serve(calls=(sent[:101] + bytes([4]) + sent[102:]).hex())]
    found += [SQUARE.serve(calls=sent[:at].hex()) for at in (1, 50, 102, 110, len(sent) - 1)]
    found += [SQUARE.serve(calls=(sent[:-1] + bytes([255])).hex()), SQUARE.prove(calls=frame(10, bytes([2])).hex())]
    found += [SQUARE.serve(calls=sent.hex(), **{fault: place}) for fault in ("shelf-fails", "sink-fails", "disk-fails") for place in (1, 2)]
    return found


def rows() -> List[Row]:
    return [row for _, pair in honest() for row in pair] + others()


def check(written: Dict[str, List[str]], line_of: Callable[[Row], str]) -> None:
    """The log of each honest session is that of the frames that are computed here."""
    for subject, pair in honest():
        log = b"".join(subject.frames())
        for row in pair:
            lines = written[line_of(row)]
            assert len(lines) == 1 and "status=0 " in lines[0], lines
            assert f" bytes={len(log)} sha256={sha256(log).hex()}" in lines[0], (lines, len(log))
