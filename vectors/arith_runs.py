"""Runs of the program about arithmetic circuits, whose peers are computed apart: words, and what each run is given.

`session_runs.py` has them among its scenarios of any words. The files `values` and `claimed` have the input elements and the claimed outputs,
and `calls` says what the peers send. Circuits are those of `stored_runs.py`.
"""
import struct
from typing import Dict, List, NamedTuple, Optional, Tuple

import arithmetic
import bristol
import stored_runs
from common import FILE_ID, P, element, frame, sha256
from ends import End, Job, Link, hold, verify
from published import AND_GATE
from session import LONG, Claim, ElementsClaim, Extended, accepted
from told import CHALLENGE_COIN, Told

# The words of a run, and what it is given.
Row = Tuple[str, Dict[str, object]]

TEXTS = stored_runs.arith_texts()

ONE_TREE = Extended(height=1, trees=1, base=10)
TWO_TREES = Extended(height=6, trees=2, base=10)
EIGHT_TREES = Extended(height=10, trees=8, base=64)


class Subject(NamedTuple):
    """What runs are about: a circuit, the input elements, the claimed outputs, or those that it gives, files and the length of sections."""

    circuit: str
    inputs: List[int]
    outputs: Optional[List[int]] = None
    params: Optional[Extended] = None
    section: int = LONG
    units: int = 1

    def job(self) -> Job:
        text = TEXTS[self.circuit]
        circuit = arithmetic.read(text)
        assert isinstance(circuit, arithmetic.Circuit)
        claim = ElementsClaim(circuit, sha256(text), self.inputs)
        outputs = claim.outputs() if self.outputs is None else self.outputs
        return Job(claim, tuple(outputs), self.params, self.units, self.section)

    def given(self) -> Dict[str, object]:
        """The words that say the same."""
        params, job = self.params, self.job()
        words: Dict[str, object] = {"circuit": self.circuit, "units": self.units}
        if params is not None:
            words["files"] = f"{params.trees},{params.height},{params.base}"
        return {**words, "values": said(self.inputs), "claimed": said(list(job.outputs))}

    def serve(self, more: str = "", **given: object) -> Row:
        words = f"serve-arith here x.verifier {self.circuit} claimed --section {self.section}{more}"
        return words + ("" if "--sessions" in more else " --sessions 1"), {**self.given(), **given}

    def prove(self, **given: object) -> Row:
        return f"prove-arith here x.prover {self.circuit} values claimed", {**self.given(), **given}

    def audit(self, log: bytes, **given: object) -> Row:
        return f"audit-arith {self.circuit} claimed x.prover x.verifier log", {**self.given(), "values": "", "log": log.hex(), **given}

    def calls(self, start: int = 0) -> Tuple[Dict[str, object], Dict[str, object]]:
        """What an honest prover sends to a service, and an honest verifier to a proof."""
        by_prover, by_verifier = hold(self.job(), start)
        return {"calls": by_prover.hex()}, {"calls": by_verifier.hex()}

    def log(self) -> bytes:
        job = self.job()
        return b"".join(accepted(job.claim, job.params, job.section))


def said(elements: List[int]) -> str:
    """Elements as a word of a scenario has them."""
    return "+".join(map(str, elements))


SQUARE = Subject("arith_square.txt", [3])
UNMET = Subject("arith_square.txt", [4], [0])
TWO_PRODUCTS = Subject("arith_two_products.txt", [5, 6])
BALANCES = Subject("balances.txt", arithmetic.elements(TEXTS["balances.values"]), units=5)
CHAIN = Subject("arith_chain.txt", [P - 1, 2], units=70)

SMALL = [
    SQUARE,
    TWO_PRODUCTS,
    Subject("arith_no_gates.txt", [P - 1, 2]),
    Subject("arith_no_outputs.txt", [7, 8]),
    Subject("arith_empty.txt", []),
    Subject("arith_input.txt", [5, 0]),
    Subject("arith_constants.txt", []),
    Subject("arith_wrap.txt", [P - 1, 2]),
]


def both(subject: Subject, **given: object) -> List[Row]:
    """A service with an honest prover, and a proof to an honest verifier."""
    to_service, to_proof = subject.calls()
    return [subject.serve(**to_service, **given), subject.prove(**to_proof, **given)]


def honest() -> List[Row]:
    """Sessions that are accepted: about circuits of every shape, over files of both kinds, in sections of one product, of some and of all."""
    rows = []
    for subject in SMALL:
        for section in (1, LONG):
            rows += both(subject._replace(section=section), show="disk")
            rows += both(subject._replace(section=section, params=ONE_TREE, units=4))
    rows += both(SQUARE._replace(params=EIGHT_TREES)) + both(TWO_PRODUCTS._replace(section=2))
    rows += both(BALANCES, show="disk") + both(BALANCES._replace(section=50)) + both(BALANCES._replace(params=EIGHT_TREES, section=1))
    rows += both(BALANCES._replace(params=TWO_TREES))
    # Some thousand gates.
    rows += both(CHAIN, show="disk") + both(CHAIN._replace(params=EIGHT_TREES, section=1000))
    rows.append(CHAIN._replace(section=1).prove(**CHAIN._replace(section=1).calls()[1]))
    for piece in (1, 7, 166):
        rows += both(SQUARE, pieces=piece)
    later = SQUARE._replace(units=9)
    return rows + [later.prove(**later.calls(5)[1], claims="0..2", show="disk")]


def several() -> List[Row]:
    """Services of several provers: each has units of its own, and logs and notices are those of every service."""
    subject = SQUARE._replace(units=32)
    calls = ",".join(subject._replace(units=32).calls(start)[0]["calls"] for start in range(3))
    sessions = " --sessions 3 --workers 1"
    shown = {"calls": calls, "show": "disk,l.0,l.1,l.2"}
    rows = [subject.serve(sessions + " --logs l", **shown), subject.serve(sessions + " --logs l --follow", **shown)]
    rows.append(subject.serve(sessions, **{**shown, "units": 2}))
    rows += [subject.serve(sessions + " --logs l", **shown, peer=peer, cut="101..104") for peer in range(3)]
    rows += [subject.serve(sessions + " --logs l", **shown, peer=1, **{kind: "1..10"}) for kind in ("fail", "lack")]
    rows += [subject.serve(sessions + " --logs l", **shown, shelf_fails=call) for call in range(1, 8)]
    rows += [subject.serve(sessions + " --logs l", **shown, disk_fails=call) for call in (1, 8, 9, 12)]
    rows += [subject.serve(sessions, **shown, door_fails=call) for call in range(1, 5)]
    rows.append(subject.serve(sessions, **shown, ceilings=16))
    first = {"calls": subject.calls()[0]["calls"], "show": "disk"}
    return rows + [subject.serve(**first, disk_fails=call, crash=left) for call in range(9, 13) for left in ("old", "new", "90")]


def unsatisfied() -> List[Row]:
    """Proofs of what is not so: nothing but the files of the claim is asked for. An assertion comes before an output that differs."""
    calls = UNMET.calls()[1]
    rows = [UNMET.prove(**calls, show="disk"), UNMET._replace(outputs=[7]).prove(**calls), UNMET._replace(outputs=[1]).prove(**calls)]
    rows.append(SQUARE._replace(outputs=[1]).prove(**calls, show="disk"))
    refused = [("shelf_fails", call) for call in (3, 4)] + [("disk_fails", 1), ("door_fails", 1), ("sink_fails", 1), ("sink_lacks", 1)]
    rows += [subject.prove(**{name: call}) for subject in (UNMET, SQUARE._replace(outputs=[1])) for name, call in refused]
    wrap = Subject("arith_wrap.txt", [P - 1, 2])
    sums = wrap.job().outputs
    rows += [wrap._replace(outputs=[sums[0] ^ first, sums[1] ^ second]).prove() for first, second in ((1, 0), (0, 1), (1, 1))]
    rows += [Subject("arith_input.txt", [5, value], [5, 0]).prove() for value in (1, P - 1)]
    # A bit that is 2, and a last balance that is not that of its bits.
    for place, value in ((4 + 40, 2), (3, 35001)):
        wrong = [*BALANCES.inputs[:place], value, *BALANCES.inputs[place + 1 :]]
        rows.append(BALANCES._replace(inputs=wrong, outputs=[0]).prove())
    rows.append(BALANCES._replace(outputs=[4295003496]).prove())
    return rows + [CHAIN._replace(outputs=[*CHAIN.job().outputs[:2], 3]).prove()]


# Texts of one element, with faults or another number of elements, and in other spellings; `+` stands for a space, and `/` for the end of a line.
BAD_TEXTS = ["none", "x", "{}/x", "-{}", "{},", "0x{}", str(P), str(2**64), str(2**65 + 3), "", "{}+{}", "{}+{}+{}+x"]
GOOD_TEXTS = ["00{}", "+{}", "/{}/", "{}+", "0" * 40 + "{}"]


def element_files() -> List[Row]:
    """Files of values and of outputs with each fault, or in other spellings; and which file comes first."""
    to_service, to_proof = SQUARE.calls()
    rows = []
    for text in BAD_TEXTS + GOOD_TEXTS:
        values, claimed = text.format(3, 3, 3), text.format(0, 0, 0)
        rows += [SQUARE.prove(**{**to_proof, "values": values}), SQUARE.prove(**{**to_proof, "claimed": claimed})]
        rows += [SQUARE.serve(**{**to_service, "claimed": claimed}), SQUARE.audit(SQUARE.log(), claimed=claimed)]
    prove, serve, audit = SQUARE.prove()[0], SQUARE.serve()[0], SQUARE.audit(b"")[0]
    given = {**SQUARE.given(), **to_proof}
    names = ["arith_square.txt", "x.prover", "values", "claimed"]
    for place, name in enumerate(names):
        rows.append((prove.replace(name, "missing"), given))
        rows += [(prove.replace(name, "missing").replace(other, "log"), {**given, "log": "78"}) for other in names[place + 1 :]]
    for words, named in ((serve, ["arith_square.txt", "claimed", "x.verifier"]), (audit, ["arith_square.txt", "claimed", "x.prover", "x.verifier", " log"])):
        rows += [(words.replace(name, name[: len(name) - len(name.lstrip())] + "missing"), SQUARE.given()) for name in named]
        rows.append((words.replace("claimed", "arith_square.txt"), SQUARE.given()))
    rows += [(prove, {**given, "values": "x", "claimed": "y"}), (prove, {**given, "values": "4", "claimed": "y"})]
    rows += [(prove.replace("x.prover", "x.verifier"), given), (serve.replace("x.verifier", "x.prover"), given), (prove.replace("arith_square", "and"), {**given, "circuit": "and.txt"})]
    rows += [(words, {**given, "tail": "7"}) for words in (prove, serve, audit)]
    # The digest in a hello is that of the circuit's text as it stands.
    return rows + [(words, {**given, **calls, "tail": "_"}) for words, calls in ((prove, to_proof), (serve, to_service))]


def failing() -> List[Row]:
    """Runs in which a call of the shelf, the disk, the door or the output fails or finds no memory."""
    to_service, to_proof = SQUARE.calls()
    log = SQUARE.log()
    rows = []
    for how in ("fails", "lacks"):
        rows += [SQUARE.prove(**to_proof, **{f"shelf_{how}": call}, show="disk") for call in range(1, 5)]
        rows += [SQUARE.serve(**to_service, **{f"shelf_{how}": call}, show="disk") for call in range(1, 4)]
        rows += [SQUARE.audit(log, **{f"shelf_{how}": call}) for call in range(1, 6)]
        for row in (SQUARE.prove(**to_proof), SQUARE.serve(**to_service)):
            rows += [(row[0], {**row[1], f"door_{how}": call}) for call in (1, 2)] + [(row[0], {**row[1], f"sink_{how}": 1})]
        rows.append(SQUARE.audit(log, **{f"sink_{how}": 1}))
        rows += [rehearsal(**{f"shelf_{how}": call}) for call in (1, 2)] + [rehearsal(**{f"sink_{how}": 1})]
    rows += [SQUARE.prove(**to_proof, disk_fails=call, show="disk") for call in range(1, 14)]
    rows += [SQUARE.serve(**to_service, disk_fails=call, show="disk") for call in range(1, 14)]
    rows += [SQUARE.prove(**to_proof, disk_fails=call, crash=left, show="disk") for call in range(9, 13) for left in ("old", "new", "90")]
    rows += [SQUARE.serve(), SQUARE.prove(), rehearsal(), SQUARE.prove(**to_proof, areas="one"), SQUARE.serve(**to_service, areas="one")]
    full = {"claims": "0..1+2..3", "slots": 2, "units": 9}
    rows += [SQUARE.prove(**{**full, "calls": SQUARE._replace(units=9).calls(start)[1]["calls"]}, show="disk") for start in (0, 1, 5)]
    return rows


def rehearsal(**given: object) -> Row:
    """A rehearsal about the same circuit."""
    return f"rehearse-arith {SQUARE.circuit} values", {**SQUARE.given(), **given}


def wrong_peers() -> List[Row]:
    """Peers of either end that end early, change a byte or fail, and verifiers that refuse, grant what does not suit, or reject."""
    to_service, to_proof = SQUARE.calls()
    assert (len(to_service["calls"]), len(to_proof["calls"])) == (2 * 165, 2 * 44)
    rows = [SQUARE.serve(**to_service, cut="0..166"), SQUARE.prove(**to_proof, cut="0..45", show="disk")]
    for mask in (1, 128):
        rows += [SQUARE.serve(**to_service, change=f"0..165:{mask}"), SQUARE.prove(**to_proof, change=f"0..44:{mask}", show="disk")]
    for kind in ("fail", "lack"):
        rows += [SQUARE.serve(**to_service, **{kind: "1..10"}), SQUARE.prove(**to_proof, **{kind: "1..9"}, show="disk")]
    tree = SQUARE._replace(params=ONE_TREE, units=2)
    by_prover, by_verifier = tree.calls()
    rows += [tree.serve(**by_prover, cut="100..130"), tree.serve(**by_prover, change="100..160:1"), tree.prove(**by_verifier, change="0..134:1")]
    answers = [frame(10, bytes([number])) for number in range(6)]
    numbers = [(1, 0), (1, LONG + 1), (0, LONG), (2, LONG), (4097, LONG), (2**32 - 1, LONG)]
    answers += [frame(2, struct.pack("<QII", 0, count, section)) for count, section in numbers]
    answers += [frame(2, struct.pack("<QII", start, 1, LONG)) for start in (1, 2**64 - 1)]
    rows += [SQUARE.prove(calls=answer.hex(), show="disk") for answer in answers]
    verdicts = [(0, 7), (1, 0), (2, 0), (2, 1), (2, 2**32 - 1), (3, 0)]
    rows += [SQUARE.prove(**to_proof, keep=34, more=frame(9, struct.pack("<BI", *verdict)).hex()) for verdict in verdicts]
    return rows + rejected()


def rejected() -> List[Row]:
    """Provers of what is not so: an opening of an output, or of an assertion behind the outputs, does not hold."""
    subjects = [UNMET, UNMET._replace(outputs=[7]), SQUARE._replace(outputs=[1]), UNMET._replace(params=ONE_TREE, units=2)]
    subjects += [Subject("arith_input.txt", [5, 1]), Subject("arith_input.txt", [5, 1], [4, 1]), TWO_PRODUCTS._replace(outputs=[1], section=1)]
    rows = [subject.serve(**subject.calls()[0]) for subject in subjects]
    # A product that is not that of its factors: the second section is rejected.
    subject = TWO_PRODUCTS._replace(section=1)
    sent = bytes.fromhex(subject.calls()[0]["calls"])
    at = 102 + 5 + 8 * 3
    other = sent[:at] + element((int.from_bytes(sent[at : at + 8], "little") + 1) % P) + sent[at + 8 :]
    return rows + [subject.serve(calls=other.hex())]


def hello_of(job: Job, version: int, more: bytes = b"") -> bytes:
    """The hello of a claim with this version, and a digest behind it."""
    return frame(1, FILE_ID + job.digests()[:64] + bytes([version]) + more)


def greetings() -> List[Row]:
    """Hellos of another kind of circuit, of another form, version or length, at verifiers of either kind."""
    circuit = bristol.read(AND_GATE)
    assert isinstance(circuit, bristol.Circuit)
    bits = [Job(Claim(circuit, sha256(AND_GATE), [1, 1], public), (1,), None, 1, LONG) for public in (0, 1)]
    arith, rest = SQUARE.job(), bytes.fromhex(SQUARE.calls()[0]["calls"])[102:]
    rows = [SQUARE.serve(calls=hold(job)[0].hex()) for job in bits]
    hellos = [hello_of(arith, version) for version in (0, 1, 2, 3, 4, 5, 255)]
    hellos += [hello_of(arith, version, digest) for version in (2, 4) for digest in (sha256(b""), bytes(32))]
    others = [SQUARE._replace(outputs=[1]).job(), TWO_PRODUCTS.job(), bits[0]]
    hellos += [hello_of(other, 4) for other in others]
    rows += [SQUARE.serve(calls=(hello + rest).hex()) for hello in hellos]
    rows += [SQUARE.serve(calls=hellos[7].hex(), pieces=1), SQUARE.serve(calls=hellos[4].hex(), pieces=1)]
    rows += [SQUARE.serve(calls=rest.hex()), SQUARE.serve(**SQUARE.calls()[0], set="5:0"), SQUARE.serve(**SQUARE.calls()[0], set="37:0")]
    lengths = [(1, 96), (1, 98), (1, 129), (1, 0), (2, 1), (3, 1), (4, 1)]
    rows += [SQUARE.serve(**SQUARE.calls()[0], set=f"{place}:{byte}") for place, byte in lengths]
    # A refusal whose send fails changes nothing.
    rows += [SQUARE.serve(calls=hellos[1].hex(), **{kind: "1..5"}) for kind in ("fail", "lack")]
    statement = "and.txt+none+1/and.txt+1+1/"
    bool_verifiers: List[Row] = [
        ("serve here x.verifier and.txt 1 --sessions 1", {}),
        ("serve here x.verifier and.txt 1 --sessions 1 --public 1", {}),
        ("serve-many here x.verifier statements --sessions 1", {"statements": statement}),
    ]
    own = [hello_of(arith, 4), hello_of(arith, 3), hello_of(bits[0], 4), hello_of(bits[0], 3)]
    rows += [(words, {**given, "calls": (hello + rest).hex()}) for words, given in bool_verifiers for hello in own]
    # A prover whose hello is refused.
    return rows + [("prove here x.prover and.txt 11 1", {"calls": frame(10, b"\x01").hex()})]


def audited() -> List[Row]:
    """Audits of logs: accepted ones, ones that were cut or changed, and ones of another kind of circuit."""
    rows = [subject.audit(subject.log()) for subject in SMALL]
    rows += [subject.audit(subject.log()) for subject in (BALANCES, CHAIN, BALANCES._replace(params=EIGHT_TREES, section=10))]
    rows += [subject._replace(params=ONE_TREE, units=4, section=1).audit(subject._replace(params=ONE_TREE, units=4, section=1).log()) for subject in SMALL]
    log = SQUARE.log()
    assert len(log) == 209
    rows += [SQUARE.audit(log[:count]) for count in (0, 1, 5, 101, 102, 103, 122, 123, 140, 144, 156, 157, 178, 199, 200, 208)] + [SQUARE.audit(log + b"\0")]
    places = [0, 1, 4, 5, 36, 37, 68, 69, 100, 101, 102, 107, 115, 119, 122, 123, 124, 128, 135, 143, 144, 149, 156, 157, 162, 177, 178, 198, 199, 204, 205, 208]
    rows += [SQUARE.audit(log[:place] + bytes([log[place] ^ 1]) + log[place + 1 :]) for place in places]
    rows += [SQUARE.audit(log[:102] + frame(10, bytes([number])) + more) for number in (0, 1, 4, 5) for more in (b"", b"\0")]
    rows += [SQUARE._replace(outputs=[1]).audit(log), TWO_PRODUCTS.audit(log)]
    circuit = bristol.read(AND_GATE)
    assert isinstance(circuit, bristol.Circuit)
    bits_log = b"".join(accepted(Claim(circuit, sha256(AND_GATE), [1, 1]), None, LONG))
    rows += [SQUARE.audit(bits_log), ("audit and.txt 1 x.prover x.verifier log", {"log": log.hex()})]
    long_hello = hello_of(SQUARE.job(), 2, sha256(b""))
    rows += [SQUARE.audit(hello_of(SQUARE.job(), version) + log[102:]) for version in (1, 2, 3)] + [SQUARE.audit(long_hello + log[102:])]
    for subject in (UNMET, UNMET._replace(outputs=[7]), TWO_PRODUCTS._replace(outputs=[1], section=1)):
        job = subject.job()
        rows.append(subject.audit(log_of(verify(job, Link(hold(job)[0]))[1])))
    return rows + told_provers()


def log_of(end: End) -> bytes:
    return b"".join(data for _, data in end.log)


def told_provers() -> List[Row]:
    """Audits of sessions with provers that are told the key, and so make the verifier accept what is not so."""

    def about(subject: Subject, fixed: List[int], spoilt: int = 0) -> Row:
        return subject.audit(Told(subject.job(), [value % P for value in fixed], spoilt).log())

    a, b = TWO_PRODUCTS.inputs
    # Two products of which the second is off by -1, and the first by the challenge: their errors have it as a root.
    first = a * b - CHALLENGE_COIN
    last = first * first + 1
    return [
        # A product that is not that of its factors; an assertion that is not met; an output that is not as claimed; and what is so.
        about(SQUARE, [4, 9]),
        about(SQUARE, [4, 9], spoilt=1),
        about(UNMET._replace(outputs=[7]), [4, 16]),
        about(SQUARE._replace(outputs=[1]), [3, 9]),
        about(UNMET, [4, 16]),
        about(SQUARE, [P - 3, 9]),
        about(TWO_PRODUCTS._replace(outputs=[last % P]), [a, b, first, last]),
        about(TWO_PRODUCTS._replace(outputs=[1]), [a, b, first, last]),
        about(TWO_PRODUCTS._replace(outputs=[1]), [a, b, a * b, 1]),
    ]


def usages() -> List[Row]:
    """Words that ask for nothing, and units above the most."""
    prove, serve, audit = SQUARE.prove()[0], SQUARE.serve()[0], SQUARE.audit(b"")[0]
    words = [prove + " more", prove + " --public 1", serve + " --public 1", serve + " --workers 0", audit + " --public 1", "serve-arith", "prove-arith", "audit-arith"]
    rows: List[Row] = [(each, SQUARE.given()) for each in words]
    # The numbers of the most inputs of a session, and of one more: units come before the journal, and behind the verifier's file.
    for circuit in ("arith_most_inputs.txt", "arith_more_inputs.txt"):
        for more in ({}, {"disk_fails": 1}, {"door_fails": 1}, {"shelf_fails": 3}):
            rows.append((f"serve-arith here x.verifier {circuit} claimed --sessions 1", {"circuit": circuit, **more}))
    return rows


def rows() -> List[Row]:
    """All of them."""
    parts = [honest(), several(), unsatisfied(), element_files(), failing(), wrong_peers(), greetings(), audited(), usages()]
    return [row for part in parts for row in part]
