#!/usr/bin/env python3
"""The sessions that `docs/PROTOCOL.md` publishes, computed apart from the program that is tested against them.

Each is over the files that a seed of 32 bytes 7 gives, and has the digest of the circuit's own file in its hello. `published.py`
prints of each how many bytes its log has, and in hex SHA-256 of the log. It compares these with the tables in that document, and so
the lines of audits there, and those of texts with faults in `docs/FORMATS.md`. It ends with 1 where any differs. `session.py` computes
the first sessions, which are over files with just the units that they take; `session_runs.py` has what both ends of the program must
write of them. Those behind them are computed end by end, by `ends.py` and `told.py`.
"""
import pathlib
import sys
from typing import List, NamedTuple, Optional, Tuple

import arithmetic
import bristol
from auditor import audit
from common import P, sha256
from ends import Job, Link, hold, verify
from session import LONG, AnyClaim, Claim, ElementsClaim, Extended, accepted
from told import CHALLENGE_COIN, Told

TOP = pathlib.Path(__file__).resolve().parent.parent

FIVE_GATES = (
    b"6 10\n2 2 2\n1 3\n\n2 1 0 1 4 AND\n1 1 4 5 INV\n1 1 1 6 EQ\n2 1 2 6 7 XOR\n1 1 5 8 EQW\n2 1 7 3 9 XOR\n"
)


FOUR_GATES = b"4 4 1 1 MUL 0 0 1 CONST 2305843009213693942 2 ADD 1 2 3 ASSERT 3\n"


class Published(NamedTuple):
    """A session: its name, the circuit's text, the bits, or the elements of an arithmetic one, the files' numbers, and the length of sections."""

    name: str
    text: bytes
    inputs: List[int]
    params: Optional[Extended]
    section: int
    public: int = 0

    def claim(self) -> AnyClaim:
        """The claim that it is about."""
        circuit = arithmetic.read(self.text)
        if isinstance(circuit, arithmetic.Circuit):
            return ElementsClaim(circuit, sha256(self.text), self.inputs)
        bits_circuit = bristol.read(self.text)
        assert isinstance(bits_circuit, bristol.Circuit)
        return Claim(bits_circuit, sha256(self.text), self.inputs, self.public)

    def job(self, outputs: Optional[List[int]] = None, total: int = 1) -> Job:
        """The same about these outputs, or those that the circuit gives, over files of so many units."""
        claim = self.claim()
        return Job(claim, tuple(claim.outputs() if outputs is None else outputs), self.params, total, self.section)


ADDER = (TOP / "examples" / "adder64.txt").read_bytes()
TURNS = [1, 0] * 64

AND_GATE = (TOP / "examples" / "and.txt").read_bytes()
BALANCES, VALUES = ((TOP / "examples" / f"balances.{end}").read_bytes() for end in ("txt", "values"))
ELEMENTS = arithmetic.elements(VALUES)
assert isinstance(ELEMENTS, list)

SESSIONS = [
    Published("AND_DIRECT", AND_GATE, [1, 1], None, LONG),
    Published("AND_EXTENDED", AND_GATE, [1, 1], Extended(height=1, trees=1, base=10), LONG),
    Published("GATES_DIRECT", FIVE_GATES, [1, 1, 0, 1], None, 3),
    Published("GATES_EXTENDED", FIVE_GATES, [1, 1, 0, 1], Extended(height=2, trees=2, base=10), 3),
    Published("ADDER_DIRECT", ADDER, TURNS, None, 3),
    Published("ADDER_EXTENDED", ADDER, TURNS, Extended(height=6, trees=2, base=10), LONG),
]


# The same about arithmetic circuits.
ARITH_SESSIONS = [
    Published("FOUR_GATES_DIRECT", FOUR_GATES, [3], None, LONG),
    Published("FOUR_GATES_EXTENDED", FOUR_GATES, [3], Extended(height=1, trees=1, base=10), LONG),
    Published("BALANCES_DIRECT", BALANCES, ELEMENTS, None, 50),
    Published("BALANCES_EXTENDED", BALANCES, ELEMENTS, Extended(height=6, trees=2, base=10), LONG),
]


class Led(NamedTuple):
    """A session whose grant starts at this unit, over files with just the units up to its last one, and how it must end."""

    given: Published
    start: int = 0
    outcome: str = "accepted"

    def log(self) -> bytes:
        total = self.start + self.given.job().units(self.given.section)
        job = self.given.job(total=total)
        outcome, end = verify(job, Link(hold(job, self.start)[0]), self.start)
        assert outcome.startswith(self.outcome), outcome
        return b"".join(data for _, data in end.log)


# Sessions from unit 1 on, one with two public bits, and one whose assertion is not met: number 1, behind the one output.
LED = [
    Led(Published("AND_DIRECT_FROM_1", AND_GATE, [1, 1], None, LONG), 1),
    Led(Published("AND_EXTENDED_FROM_1", AND_GATE, [1, 1], Extended(height=2, trees=2, base=10), LONG), 1),
    Led(Published("GATES_PUBLIC", FIVE_GATES, [1, 1, 0, 1], None, 3, 2)),
    Led(Published("FOUR_GATES_UNMET", FOUR_GATES, [4], None, LONG), 0, "rejected-opening output=1 "),
]

# Provers that know the coins, or the key, with the values that they fix: of both products of a private input by itself, and of the gate;
# of a gate that is wrong; and of an output that is not as claimed.
CHEATING = [
    ("AND_CHALLENGE_ROOT", Told(SESSIONS[0].job([1]), [-CHALLENGE_COIN * CHALLENGE_COIN % P, 1, 1])),
    ("AND_KEY_ROOT", Told(SESSIONS[0].job([1]), [1, 0, 1])),
    ("FOUR_GATES_KEY_ROOT", Told(ARITH_SESSIONS[0].job([1]), [3, 9])),
]

# Texts that are no arithmetic circuits, which `docs/FORMATS.md` has with their faults.
FAULTY = [
    "1 3 2 1 MUL 9 x 2",
    "1 3 4 9 MUL 0 1 2",
    "1 3 2 4 MUL 0 1 2",
    "1 3 2 1 7 0 1 2",
    "1 2 1 1 CONST 2305843009213693951 9",
    "1 2 1 1 ASSERT 1",
    "1 3 1 1 ADD 0 0 1",
]


def log_of(given: Published) -> bytes:
    return b"".join(accepted(given.claim(), given.params, given.section))


def answer_of(told: Told, log: bytes) -> str:
    """The line of an audit of this log, which finds a root."""
    name, *fields = audit(told.job, log).split(":")
    section = [] if name == "key-root" else ["section", fields.pop(0)]
    return " ".join([name.replace("-", " "), *section, "poly", *fields])


def fault_of(text: str) -> str:
    """The line of a text's first fault."""
    fault = arithmetic.read(text.encode())
    assert isinstance(fault, bristol.Fault)
    return f"refused {fault.name} {fault.number} {fault.place}"


def rows() -> List[Tuple[str, str, str, str]]:
    """Of each value its name, how it is printed, the document that has it, and what stands there."""
    logs = [(given.name, log_of(given)) for given in SESSIONS + ARITH_SESSIONS] + [(led.given.name, led.log()) for led in LED]
    cheats = [(name, told, told.log()) for name, told in CHEATING]
    found = []
    for name, log in logs + [(name, log) for name, _, log in cheats]:
        digest = sha256(log).hex()
        found.append((name, f"{len(log)} bytes {digest}", "PROTOCOL.md", f"| {len(log):,} | `{digest}` |"))
    for name, told, log in cheats:
        answer = answer_of(told, log)
        found.append((name, answer, "PROTOCOL.md", f"    {answer}\n"))
    for text in FAULTY:
        fault = fault_of(text)
        found.append((text, fault, "FORMATS.md", f"| `{text}` | `{fault}` |"))
    return found


def main() -> int:
    wrong = 0
    for name, said, document, row in rows():
        print(f"{name}: {said}")
        if row not in (TOP / "docs" / document).read_text():
            print(f"docs/{document} has another row of {name}")
            wrong += 1
    return 1 if wrong else 0


if __name__ == "__main__":
    sys.exit(main())
