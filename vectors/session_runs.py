#!/usr/bin/env python3
"""What `crates/session_runs` is run on and what it must write, computed apart from the program.

That program takes a scenario from each line of its input: whose session it is, and words `name=value`, as its first comment says. It
writes the line, and a line for each session. Behind the scenarios stand the command lines of `stored_runs.py`. `session_runs.py --write` writes the scenarios to the file `stdin` there, what must be
written to `stdout`, and the circuits that the scenarios are about to `data`. Without it the script compares them with what stands there; it
prints what differs, and ends with 1 where anything does.

`ends.py` computes both ends, `program.py` runs of the program, and `session.py` what honest ones say, which
must be the same. The sessions that `docs/PROTOCOL.md` publishes are among them, and must have the digests
that stand there.
"""
import functools
import pathlib
import struct
import sys
from typing import Callable, Dict, Iterable, Iterator, List, NamedTuple, Optional, Tuple

import arith_runs
import poly_runs
import bristol
import broker_runs
import dealt_files
import program
import stored_runs
from auditor import audit
from common import P, element, frame, sha256
from dealt_files import MANY_UNITS
from ends import MOST_RECEIVED, MOST_UNITS, End, Job, Link, hold, prove, verify
from published import ADDER, AND_GATE, ARITH_SESSIONS, FIVE_GATES, SESSIONS, log_of
from session import LONG, Claim, Extended, accepted, sent_by_prover, session
from told import CHALLENGE_COIN, Told

TOP = pathlib.Path(__file__).resolve().parent.parent
CRATE = TOP / "crates" / "session_runs"

# Circuits of inputs alone: with sections of one product the first takes 4,096 units, and the second one more.
MANY_INPUTS = 4096 * 32


def inputs_text(count: int) -> bytes:
    return f"0 {count} 1 {count} 1 1\n".encode()


def chain_text(gates: int) -> bytes:
    """A circuit of two inputs and so many gates of each kind in turn, which read the wire before, and one of half the number."""
    kinds = ["EQ", "EQW", "INV", "AND", "XOR", "AND", "XOR"]
    lines = [f"{gates} {gates + 2}", "1 2", "1 4"]
    for wire in range(2, gates + 2):
        last, half, kind = wire - 1, wire // 2, kinds[wire % 7]
        reads = {"EQ": f"1 1 {half % 2}", "EQW": f"1 1 {half}", "INV": f"1 1 {last}"}.get(kind, f"2 1 {last} {half}")
        lines.append(f"{reads} {wire} {kind}")
    return "".join(f"{each}\n" for each in lines).encode()


CIRCUITS = {
    "and.txt": AND_GATE,
    "five_gates.txt": FIVE_GATES,
    "adder64.txt": ADDER,
    "chain.txt": chain_text(6000),
    "no_wires.txt": b"0 0 0 0\n",
    "no_outputs.txt": b"1 2\n1 1\n0\n1 1 0 1 INV\n",
    "long_chain.txt": b"6001 6004\n" + chain_text(6000).split(b"\n", 1)[1],
    "wide_inputs.txt": inputs_text(5000),
    "many_inputs.txt": inputs_text(MANY_INPUTS),
    "more_inputs.txt": inputs_text(MANY_INPUTS + 1),
    "most_inputs.txt": inputs_text(2 * MANY_INPUTS - 1),
    "too_many_inputs.txt": inputs_text(2 * MANY_INPUTS),
}
READ = {name: bristol.read(text) for name, text in CIRCUITS.items()}

# The texts that runs are given, with those of arithmetic circuits.
TEXTS = {**CIRCUITS, **stored_runs.arith_texts()}

ONE_TREE = {"files": "1,1,10", "units": "2"}
EIGHT_TREES = {"files": "8,10,64"}


class Scenario(NamedTuple):
    """Whose session a line is about, and its words."""

    end: str
    words: Dict[str, str]

    def line(self) -> str:
        return " ".join([self.end] + [f"{name}={value}" for name, value in self.words.items()])

    def number(self, name: str, default: int) -> int:
        return int(self.words.get(name, default))

    def params(self) -> Optional[Extended]:
        files = self.words.get("files", "direct")
        if files == "direct":
            return None
        trees, height, base = map(int, files.split(","))
        return Extended(height=height, trees=trees, base=base)

    def before(self) -> Tuple[Job, ...]:
        """The job that a verifier offers before that of the scenario, where there is one."""
        if "before" not in self.words:
            return ()
        job = self.job()
        return (job._replace(claim=job.claim._replace(public=self.number("before", 0))),)

    def job(self, digest: Optional[bytes] = None) -> Job:
        """What its session is about, whose hello has the digest of the circuit's text, or this one."""
        name = self.words.get("circuit", "and.txt")
        circuit = READ[name]
        assert isinstance(circuit, bristol.Circuit)
        pattern = self.words.get("bits", "1")
        bits = [int(pattern[i % len(pattern)]) for i in range(circuit.inputs)]
        claim = Claim(circuit, digest or sha256(CIRCUITS[name]), bits, self.number("public", 0))
        outputs = self.words.get("outputs")
        claimed = bristol.evaluate(circuit, bits) if outputs is None else map(int, outputs)
        return Job(claim, tuple(claimed), self.params(), self.number("units", 1), self.number("section", LONG))


def line(end: str, **words: object) -> Scenario:
    return Scenario(end, {name: str(value) for name, value in words.items()})


# ---- what a scenario writes


def refusal_of(scenario: Scenario) -> Optional[str]:
    """The outcome of a refusal of units."""
    if "refuse" not in scenario.words:
        return None
    name, *numbers = scenario.words["refuse"].split(",")
    if name == "overlap":
        return "overlap earlier={}..{}".format(*numbers)
    labels = {"exhausted": ("at", "count", "total"), "broken": ("first",), "out-of-range": ("total",), "full": ("slots",)}
    return " ".join([name] + [f"{label}={number}" for label, number in zip(labels.get(name, ()), numbers)])


def script_of(scenario: Scenario, honest: bytes) -> bytes:
    """What the peer sends."""
    script = honest[: scenario.number("keep", len(honest))] + bytes.fromhex(scenario.words.get("more", ""))
    return changed(scenario, "set", script)


def changed(scenario: Scenario, name: str, data: bytes) -> bytes:
    """The same but for the byte that this word sets."""
    if name not in scenario.words:
        return data
    place, byte = map(int, scenario.words[name].split(":"))
    return data[:place] + bytes([byte]) + data[place + 1 :]


def cases_of(scenario: Scenario, script: bytes) -> Iterator[Tuple[str, bytes, Dict[str, int]]]:
    """The sessions of a scenario: of each its name, what the peer sends, and which call of the link is refused."""
    sweep = next((name for name in ("cut", "change", "fail", "lack") if name in scenario.words), None)
    if sweep is None:
        yield "", script, {}
        return
    numbers, _, mask = scenario.words[sweep].partition(":")
    for number in range(*map(int, numbers.split(".."))):
        name = f"{sweep}={number} "
        if sweep == "cut":
            yield name, script[:number], {}
        elif sweep == "change":
            changed = script[number] ^ int(mask)
            yield name, script[:number] + bytes([changed]) + script[number + 1 :], {}
        else:
            yield name, script, {f"{sweep}ing": number}


def note_line(scenario: Scenario, name: str, outcome: str, end: End) -> str:
    taken = f" statement={end.statement}" if "before" in scenario.words and end.side == "v" else ""
    calls = f"sends={end.link.sends} receives={end.link.receives} failed={end.link.faults}"
    return f"{name}{outcome}{taken} asked={end.asked} units={end.units} {program.log_words(end.log)} {calls}"


def verifier_lines(scenario: Scenario, job: Job, honest: bytes) -> List[str]:
    lines = []
    for name, script, refused in cases_of(scenario, script_of(scenario, honest)):
        link = Link(script, scenario.number("pieces", MOST_RECEIVED), **refused)
        outcome, end = verify(job, link, scenario.number("start", 0), refusal_of(scenario), scenario.before())
        lines.append(note_line(scenario, name, outcome, end))
    return lines


def prover_lines(scenario: Scenario, job: Job, honest: bytes) -> List[str]:
    lines = []
    for name, script, refused in cases_of(scenario, script_of(scenario, honest)):
        outcome, end = prove(job, Link(script, scenario.number("pieces", MOST_RECEIVED), **refused), refusal_of(scenario))
        lines.append(note_line(scenario, name, outcome, end))
    return lines


def rehearsal_line(scenario: Scenario) -> str:
    """A rehearsal has just the units that it takes, and 32 zero bytes in place of the circuit's digest."""
    job = scenario.job(bytes(32))
    units = job.units(job.section)
    job = job._replace(total=units)
    sent = hold(job)
    outcome, end = verify(job, Link(sent[0]))
    assert outcome == "accepted"
    assert b"".join(data for _, data in end.log) == b"".join(accepted(job.claim, job.params, job.section))
    return f"{outcome} units={units} {program.log_words(end.log)}"


def audited_log(job: Job) -> bytes:
    """The log of a rehearsal, in which the hello has 32 zero bytes in place of the circuit's digest."""
    return b"".join(accepted(job.claim, job.params, job.section))


def audit_lines(scenario: Scenario) -> List[str]:
    """Audits of the log of such a rehearsal, changed as the words say."""
    job = scenario.job(bytes(32))
    job, log = job._replace(total=job.units(job.section)), audited_log(job)
    return [f"{name}{audit(job, changed)}" for name, changed, _ in cases_of(scenario, script_of(scenario, log))]


# ---- runs of the program


def outside_of(scenario: Scenario, kind: int) -> program.Outside:
    """What a run is given, with the journal of this kind."""
    name = scenario.words.get("circuit", "and.txt")
    text = TEXTS[name] + scenario.words.get("tail", "").replace("_", " ").encode()
    params, total = scenario.params(), scenario.number("units", 1)
    numbers = (0, 0, 0, 0) if params is None else (1, params.height, params.trees, params.base)
    dealt = zip(("x.prover", "x.verifier"), program.dealt_by(dealt_files.Params(*numbers, total)), pairs_of(scenario, "versions", "1,1"))
    files = {side: damaged(scenario, in_version(data, version)) for side, data, version in dealt}
    files[name] = text.ljust(scenario.number("size", 0), b"\n")
    for text_name in ("statements", "values", "claimed"):
        files[text_name] = scenario.words.get(text_name, "").replace("+", " ").replace("/", "\n").encode()
    files["log"] = bytes.fromhex(scenario.words.get("log", ""))
    fails, lacks = ({each: scenario.number(f"{each}-{how}", 0) for each in ("shelf", "sink", "door")} for how in ("fails", "lacks"))
    disk = program.Disk(journal_of(scenario, kind, total), scenario.number("disk-fails", 0))
    return program.Outside(files, disk, fails, lacks)


def pairs_of(scenario: Scenario, name: str, default: str) -> Tuple[int, int]:
    """The two numbers of a word."""
    first, second = map(int, scenario.words.get(name, default).split(","))
    return first, second


def in_version(data: bytes, version: int) -> bytes:
    """A dealt file, with its digest, as one of this version."""
    if isinstance(data, program.Header):
        return data
    return dealt_files.sealed(b"WQSFILE%d" % version + data[8:-32])


def damaged(scenario: Scenario, data: bytes) -> bytes:
    """A dealt file, cut or with zero bytes after it, in which some bytes are others."""
    if "damage" not in scenario.words and "dealt-size" not in scenario.words:
        return data
    size = scenario.number("dealt-size", len(data))
    bad = bytearray(data[:size].ljust(size, b"\0"))
    for change in filter(None, scenario.words.get("damage", "").split("+")):
        place, byte = map(int, change.split(":"))
        bad[place : place + 1] = bytes([byte]) if place < len(bad) else b""
    return bytes(bad)


def bodies_of(scenario: Scenario, kind: int, total: int) -> Iterator[Tuple[int, int]]:
    """What the open slots of a journal say: the prover's claims, or the verifier's ceilings."""
    if kind == 1:
        for slot in range(-(-scenario.number("ceilings", 0) // 16)):
            yield min(total, 16 * (slot + 1)), 0
        return
    for claim in filter(None, scenario.words.get("claims", "").split("+")):
        start, end = map(int, claim.split(".."))
        yield start, end


def journal_of(scenario: Scenario, kind: int, total: int) -> bytes:
    """A journal of this kind, with its areas and bodies, cut, and with a byte that is another."""
    bodies = list(bodies_of(scenario, kind, total))
    spent = (total, 0) if kind == 1 else (0, total)
    areas = scenario.words.get("areas", "two")
    data = b""
    if areas != "two":
        new = dealt_files.one_area(kind, total, given_number(scenario, "slots"), 0x5A * (areas == "moved"))
        data = new[:64] + dealt_files.area(0, bodies if areas == "one" else [spent], len(new) // 32 - 2)[32:]
    if areas != "one":
        slots = scenario.number("slots", dealt_files.own_slots(kind, total))
        heads = pairs_of(scenario, "heads", "1,0")
        active = heads[1] > heads[0]
        says = [bodies if second == active else [spent] * (heads[second] > 0) for second in (0, 1)]
        data += dealt_files.header_of(kind, total, slots)
        data += b"".join(dealt_files.area(head, said, slots) for head, said in zip(heads, says))
    size = scenario.number("journal-size", len(data))
    return changed(scenario, "journal-set", data.ljust(size, b"\0")[:size])


def given_number(scenario: Scenario, name: str) -> Optional[int]:
    return int(scenario.words[name]) if name in scenario.words else None


def shown(scenario: Scenario, outside: program.Outside) -> str:
    words = ""
    files = {**outside.files, "disk": bytes(outside.disk.data)}
    for shown_name in filter(None, scenario.words.get("show", "").split(",")):
        name, _, most = shown_name.partition(":")
        if name not in files:
            words += f" {shown_name}=none"
            continue
        data = files[name]
        count = data.length if isinstance(data, program.Header) else len(data)
        words += f" {shown_name}={count},{digest_of(data, count, int(most or count))}"
    return words


def digest_of(data: bytes, count: int, most: int) -> str:
    """SHA-256 of the first bytes of a file, of which there may be the header alone."""
    if isinstance(data, program.Header) and most > len(data):
        return next(digest for length, digest in MANY_UNITS if (length, length - 32) == (count, most))
    return sha256(data[:most]).hex()


class Links(NamedTuple):
    """Who calls at the door, or is called in a proof, and the brokers to which a node connects."""

    peers: List[Link]
    brokers: List[Link]


def run_line(scenario: Scenario, name: str, words: List[str], links: Links, outside: program.Outside) -> str:
    outside.brokers = iter(links.brokers)
    came = program.run(outside, words, links.peers)
    written = program.quoted(outside.written)
    said = f" said={program.quoted(outside.said.encode())}" if outside.said else ""
    return f"{name}status={came.status} written={written}{said} {came.part}{shown(scenario, outside)}"


def run_lines(scenario: Scenario, name: str, words: List[str], links: Callable[[], Links]) -> List[str]:
    """The line of a run, and where a crash follows that of the same over what it leaves of the disk, where no call is refused."""
    claims = words[0] in ("prove", "prove-arith") or words[:2] in (["migrate", "prover"], ["status", "x.prover"]) or "--node" in words
    outside = outside_of(scenario, 0 if claims else 1)
    lines = [run_line(scenario, name, words, links(), outside)]
    if "crash" in scenario.words:
        disk = program.Disk(outside.disk.left(scenario.words["crash"]), 0)
        files = outside_of(scenario, 1).files
        lines.append(run_line(scenario, "again ", words, links(), program.Outside(files, disk)))
    return lines


def words_lines(scenario: Scenario) -> List[str]:
    words = scenario.words["words"].split(",")
    if "BITS" in words:
        circuit, pattern = READ[scenario.words.get("circuit", "and.txt")], scenario.words.get("bits", "1")
        private = range(scenario.number("public", 0), circuit.inputs)
        words[words.index("BITS")] = "".join(pattern[i % len(pattern)] for i in private)
    return peers_lines(scenario, words, stated_scripts(scenario, "calls"))


def stated_scripts(scenario: Scenario, name: str) -> List[bytes]:
    """What peers send, in hex, or `-` for nothing."""
    return [b"" if script == "-" else bytes.fromhex(script) for script in scenario.words.get(name, "").split(",") if script]


def peers_lines(scenario: Scenario, words: List[str], honest: List[bytes]) -> List[str]:
    """Runs of these words with these peers and the brokers behind them, which do as they are said to but for the one that is stated."""
    stated, brokers = scenario.number("peer", 0), stated_scripts(scenario, "brokers")
    scripts = honest + brokers
    lines = []
    script = scripts[stated] if stated < len(scripts) else b""
    for name, changed_script, refused in cases_of(scenario, script_of(scenario, script)):

        def links() -> Links:
            calling = [Link(each) for each in scripts]
            link = Link(changed_script, scenario.number("pieces", MOST_RECEIVED), **refused)
            calling[stated : stated + 1] = [link] if stated < len(calling) else []
            return Links(calling[: len(honest)], calling[len(honest) :])

        lines += run_lines(scenario, name, words, links)
    return lines


def service_words(scenario: Scenario, job: Job) -> List[str]:
    words = ["serve", "here", "x.verifier", scenario.words.get("circuit", "and.txt"), bristol.word_of(list(job.outputs))]
    if "statements" in scenario.words:
        words = ["serve-many", "here", "x.verifier", "statements"]
    if "node" in scenario.words:
        words = ["serve-node", "here", "there", *words[2:], "--node", scenario.words["node"], "--sessions", scenario.words.get("sessions", "1")]
        return words + ["--follow"] * ("follow" in scenario.words)
    words += ["--sessions", scenario.words.get("sessions", "1"), "--section", str(job.section)]
    for name in ("workers", "logs"):
        words += [f"--{name}", scenario.words[name]] if name in scenario.words else []
    words += ["--follow"] if "follow" in scenario.words else []
    return words + ([] if "statements" in scenario.words else public_words(job))


def public_words(job: Job) -> List[str]:
    """The option of public bits, where there are some."""
    return ["--public", bristol.word_of(job.claim.public_bits())] if job.claim.public else []


def service_lines(scenario: Scenario, job: Job) -> List[str]:
    """The peers that call are honest, each over the units after those of the peer before, but for the one that is stated."""
    first, size = scenario.number("start", 0), job.units(job.section)
    honest = [hold(job, first + size * number)[0] for number in range(scenario.number("peers", 1))]
    return peers_lines(scenario, service_words(scenario, job), honest)


def proof_lines(scenario: Scenario, job: Job, honest: bytes) -> List[str]:
    words = ["prove", "here", "x.prover", scenario.words.get("circuit", "and.txt")]
    words += [bristol.word_of(job.claim.bits[job.claim.public :]), bristol.word_of(list(job.outputs))] + public_words(job)
    return peers_lines(scenario, words, [honest])


def lines_of(scenario: Scenario) -> List[str]:
    """What a scenario writes."""
    if scenario.end == "run":
        return words_lines(scenario)
    if scenario.end == "rehearsal":
        return [rehearsal_line(scenario)]
    if scenario.end == "audit":
        return audit_lines(scenario)
    job = scenario.job()
    units = job.units(job.section)
    if units > MOST_UNITS:
        if scenario.end in ("prover", "proof"):
            return (prover_lines if scenario.end == "prover" else proof_lines)(scenario, job, b"")
        return [f"too-large need={job.need(job.section)} units={units}"]
    if scenario.end == "service":
        return service_lines(scenario, job)
    by_prover, by_verifier = hold(job, scenario.number("start", 0), scenario.before())
    if scenario.end == "verifier":
        return verifier_lines(scenario, job, by_prover)
    if scenario.end == "prover":
        return prover_lines(scenario, job, by_verifier)
    if scenario.end == "proof":
        return proof_lines(scenario, job, by_verifier)
    return verifier_lines(scenario, job, by_prover) + prover_lines(scenario, job, by_verifier)


# ---- the scenarios


def published() -> List[Scenario]:
    """The sessions that are published, as both ends hold them."""
    names = {text: name for name, text in CIRCUITS.items()}
    scenarios = []
    for given in SESSIONS:
        bits = {"and.txt": "1", "five_gates.txt": "1101", "adder64.txt": "10"}[names[given.text]]
        words: Dict[str, object] = {"circuit": names[given.text], "bits": bits, "section": given.section}
        if given.params is not None:
            words["files"] = "{0.trees},{0.height},{0.base}".format(given.params)
        words["units"] = line("both", **words).job().units(given.section)
        scenarios.append(line("both", **words))
    return scenarios


def honest_sessions() -> List[Scenario]:
    """Sessions with honest peers, which send a byte more, in pieces of any length, of any units; and rehearsals."""
    scenarios = [line("both", more="00"), line("both", section=1, more="00")]
    scenarios += [line("both", section=section, **EIGHT_TREES, more="00") for section in (1, LONG)]
    scenarios += [line("both", **words, pieces=pieces) for words in ({}, ONE_TREE) for pieces in (1, 7, 165)]
    scenarios += [line("both", start=5, units=6), line("both", start=3, files="1,1,10", units=5)]
    scenarios += [line("both", circuit="five_gates.txt", bits=f"{bits:04b}", section=2) for bits in range(16)]
    scenarios += [line("rehearsal", **words, section=section) for words in ({}, EIGHT_TREES) for section in (1, LONG)]
    scenarios.append(line("rehearsal", circuit="adder64.txt", bits="10", section=3))
    scenarios += [line(end, circuit="no_wires.txt", bits="none") for end in ("both", "rehearsal")]
    scenarios += [line("both", circuit="no_outputs.txt", bits=bit) for bit in (0, 1)]
    for section in (1, 1000, LONG):
        scenarios.append(line("both", circuit="chain.txt", bits="10", section=section, units=128, more="00"))
        scenarios.append(line("rehearsal", circuit="chain.txt", bits="10", section=section))
    return scenarios


AND_JOB = line("verifier").job()
BY_PROVER, BY_VERIFIER = hold(AND_JOB)
HELLO, CORRECTIONS = BY_PROVER[:102], BY_PROVER[102:131]


def wrong_provers() -> List[Scenario]:
    """A verifier's sessions with peers that end, send another frame or change a byte."""
    assert len(BY_PROVER) == 165
    scenarios = [line("verifier", cut="0..166")]
    scenarios += [line("verifier", change=f"0..165:{mask}") for mask in (1, 128)]
    scenarios.append(line("verifier", pieces=1, change="0..165:1"))
    for more in (HELLO, frame(5, bytes(32)), CORRECTIONS[:5] + element(P - 1)[:7] + b"\x20", CORRECTIONS[:5] + P.to_bytes(8, "little")):
        scenarios.append(line("verifier", keep=102, more=more.hex()))
    scenarios += [line("verifier", outputs="0"), line("verifier", bits="10", outputs="1")]
    return scenarios + wrong_greeters()


def wrong_greeters() -> List[Scenario]:
    """A verifier's sessions with peers that send a hello in the long form, of another version or of another length."""

    def long_hello(version: int, digest: bytes) -> bytes:
        return frame(1, HELLO[5:101] + bytes([version]) + digest) + BY_PROVER[102:]

    none, one = sha256(b""), sha256(b"1")
    greetings = [long_hello(2, none), long_hello(1, none), long_hello(2, one), long_hello(0, one)]
    scenarios = [line("verifier", keep=0, more=greeting.hex()) for greeting in greetings]
    scenarios += [line("verifier", keep=0, more=greetings[0].hex(), pieces=pieces) for pieces in (1, 3, 134)]
    scenarios += [line("verifier", keep=0, more=greetings[0][:count].hex()) for count in (1, 2, 3, 102, 133, 134)]
    return scenarios + [line("verifier", set=f"{place}:{byte}") for place, byte in ((101, 2), (1, 98), (1, 128), (1, 129), (1, 0), (2, 1))]


PUBLIC = {"public": 1}


def public_sessions() -> List[Scenario]:
    """Sessions about public bits: with honest peers, with peers that end or change a byte, and with peers that greet for other bits."""
    scenarios = [line("both", **PUBLIC, bits=bits) for bits in ("11", "10", "01")]
    scenarios += [line("both", public=2, bits="11"), line("both", **PUBLIC, more="00", pieces=3)]
    scenarios += [line("both", circuit="five_gates.txt", bits="1101", public=public, section=2) for public in range(1, 5)]
    scenarios += [line("both", **TEN_UNITS, public=public, units=10) for public in (64, 128)]
    scenarios.append(line("both", circuit="chain.txt", bits="10", public=1, section=1000, **EIGHT_TREES))
    scenarios += [line("both", **PUBLIC, **ONE_TREE, more="00"), line("rehearsal", **PUBLIC), line("rehearsal", public=2, **EIGHT_TREES)]
    scenarios.append(line("rehearsal", **TEN_UNITS, public=64))
    sent = hold(line("verifier", **PUBLIC).job())[0]
    assert len(sent) == 189
    scenarios += [line("verifier", **PUBLIC, cut="133..157"), line("verifier", **PUBLIC, change="100..139:1")]
    scenarios += [line(end, **PUBLIC, fail="1..9") for end in ("verifier", "prover")]
    scenarios.append(line("verifier", **PUBLIC, outputs="0"))
    # The peers of statements with other public bits, or with none.
    others = [hold(line("verifier", public=public, bits=bits).job())[0] for public, bits in ((0, "11"), (1, "01"), (2, "11"))]
    scenarios += [line("verifier", **PUBLIC, keep=0, more=other.hex()) for other in others]
    return scenarios + [line("verifier", public=2, keep=0, more=sent.hex()), line("verifier", keep=0, more=sent.hex(), pieces=1)]


def several_statements() -> List[Scenario]:
    """Sessions of a verifier that offers another statement first: of its own prover, of the other's, and of neither."""
    scenarios = [line("both", before=before, public=public) for before in range(3) for public in range(3)]
    scenarios += [line("verifier", before=before, public=public, outputs=0) for before, public in ((0, 1), (1, 0), (1, 1))]
    neither = hold(line("verifier", public=2).job())[0]
    scenarios += [line("verifier", before=before, public=1 - before, keep=0, more=neither.hex()) for before in (0, 1)]
    first = hold(line("verifier", public=1).job())[0]
    scenarios += [line("verifier", before=1, keep=0, more=first.hex()), line("verifier", before=1, **ONE_TREE)]
    scenarios += [line("verifier", before=1, cut="101..104"), line("verifier", before=1, change="96..103:1"), line("verifier", before=1, fail="1..9")]
    scenarios += [line("verifier", before=1, fail="2..4", refuse=refusal) for refusal in ("exhausted,0,1,1", "device", "broken,5")]
    scenarios.append(line("both", **TEN_UNITS, public=64, before=128, units=10))
    scenarios.append(line("both", circuit="chain.txt", bits="10", public=1, before=0, section=1, units=128))
    return scenarios + [line("both", circuit="chain.txt", bits="10", before=2, section=1, units=128)]


def public_runs() -> List[Scenario]:
    """Runs about public bits, and words and circuits that have no such bits."""
    words = ["rehearse and.txt 1 --public 1", "rehearse --public 10 and.txt none", "rehearse and.txt 11 --public none"]
    words += ["rehearse and.txt 1 --public 111", "rehearse and.txt 11 --public 1", "rehearse and.txt 1 --public none"]
    words += ["rehearse and.txt 1 --public", "rehearse and.txt 1 --public 2", "rehearse and.txt 1 --public  --extended"]
    words += ["rehearse and.txt 1 --public 1 --public 1", "eval and.txt 1 --public 1", "deal x --units 1 --public 1"]
    words += [f"{SERVE} --public {bits}" for bits in ("1", "111", "2", "none --public none")]
    words += ["serve here missing and.txt 10 --sessions 1 --public 111", "serve here missing and.txt 10 --sessions 1 --public 11"]
    prove = "prove here x.prover and.txt"
    words += [f"{prove} 1 1 --public 1", f"{prove} 1 1 --public 0", f"{prove} 1 10 --public 1", f"{prove} 1 1 --public 111"]
    words += [f"{prove} 11 1 --public 1", f"{prove} none 1 --public 1", f"{prove} 1 1 --public x", f"{prove} none 1 --public 11"]
    scenarios = [run(each) for each in words]
    scenarios.append(run("rehearse chain.txt BITS --section 1 --public 1", circuit="chain.txt", bits="10", public=1))
    circuit = "more_inputs.txt"
    return scenarios + [run(f"rehearse {circuit} BITS --section 1 --public 1", circuit=circuit, public=1)]


def generated_runs() -> List[Scenario]:
    """Rehearsals of generated circuits, and words that ask for none."""
    words = ["--gates 1 --number 0", "--gates 4 --number 22", "--number 7 --gates 1000", "--extended --gates 1000 --number 7"]
    words += ["--gates 1000 --number 7 --section 1", "--gates 31 --number 18446744073709551615", "--gates 0032 --number 00"]
    words += ["--gates 0 --number 1", "--gates 1048513 --number 1", "--gates 1 --number 18446744073709551616", "--gates 1", "--number 1"]
    words += ["--gates 1 --number 1 --public 1", "and.txt 11 --gates 1 --number 1", "and.txt --gates 1 --number 1", "--gates 1 --number"]
    words += ["--gates 1 --gates 1 --number 1", "--gates x --number 1", "--gates  --number 1", "--gates 1 --number -1", ""]
    scenarios = [run(f"rehearse {each}".rstrip(" ") if each == "" else f"rehearse {each}") for each in words]
    scenarios += [run("rehearse --gates 1000 --number 7", sink_fails=1), run("rehearse --gates 1000 --number 7", shelf_fails=1)]
    return scenarios + [run(f"rehearse --gates {gates} --number 5 --section 1") for gates in (174500, 174700)]


def public_ends() -> List[Scenario]:
    """Services and proofs about public bits."""
    scenarios = [line("service", **PUBLIC), line("service", **PUBLIC, **ONE_TREE), served(3, **PUBLIC, units=32, logs="l", show="l.0,l.2,disk")]
    scenarios += [line("service", **PUBLIC, fail="1..10"), line("service", **PUBLIC, outputs=0), line("service", public=2, cut="133..136")]
    scenarios += [served(2, **TEN_UNITS, public=64, units=32), line("service", circuit="chain.txt", bits="10", public=1, section=1, units=128)]
    scenarios += [proof(**PUBLIC, show="disk"), proof(**PUBLIC, **ONE_TREE), proof(public=2, bits="10"), proof(**PUBLIC, fail="1..9")]
    scenarios.append(proof(circuit="chain.txt", bits="10", public=1, section=1000, **EIGHT_TREES))
    return scenarios + [proof(**TEN_UNITS, public=64, units=32, start=5), proof(**PUBLIC, outputs=0)]


def wrong_askers() -> List[Scenario]:
    """A verifier's sessions over extended files with peers that ask wrongly, end or change a byte."""
    job = line("verifier", **ONE_TREE).job()
    scenarios = []
    for wrong in ("flip", "element"):
        sent = sent_by_prover(session(job.claim, job.params, LONG, wrong).frames)
        scenarios.append(line("verifier", **ONE_TREE, keep=0, more=sent.hex()))
    scenarios += [line("verifier", **ONE_TREE, set=place) for place in ("102:4", "103:8", "107:2", "116:5", "121:255")]
    scenarios.append(line("verifier", **ONE_TREE, cut="0..194"))
    return scenarios + [line("verifier", **ONE_TREE, change=f"0..193:{mask}") for mask in (1, 128)]


def refused_leases() -> List[Scenario]:
    """A verifier's sessions where a call of the link fails, or no units are leased."""
    scenarios = [line("verifier", fail="1..9"), line("verifier", fail="1..13", **ONE_TREE)]
    scenarios += [line("verifier", refuse=refusal, fail="2..4") for refusal in ("exhausted,0,1,1", "device", "broken,5")]
    return scenarios + [line("verifier", start=1), line("verifier", start=2**64 - 1), line("verifier", keep=101, more="02", fail="2..4")]


def wrong_verifiers() -> List[Scenario]:
    """A prover's sessions with peers that end, send another frame or change a byte."""
    assert len(BY_VERIFIER) == 44
    scenarios = [line("prover", cut="0..45"), line("prover", pieces=3, cut="0..45")]
    scenarios += [line("prover", change=f"0..44:{mask}") for mask in (1, 128)]
    for verdict, number in ((0, 7), (1, 0), (1, 258), (2, 2**32 - 1), (3, 0)):
        scenarios.append(line("prover", keep=34, more=frame(9, struct.pack("<BI", verdict, number)).hex()))
    scenarios.append(line("prover", **ONE_TREE, cut="0..135"))
    return scenarios + [line("prover", **ONE_TREE, change=f"0..134:{mask}") for mask in (1, 128)]


def grant(start: int, count: int, section: int) -> str:
    return frame(2, struct.pack("<QII", start, count, section)).hex()


def refused_claims() -> List[Scenario]:
    """A prover's sessions where a call of the link fails, no units are claimed, or a grant does not suit."""
    scenarios = [line("prover", fail="1..9"), line("prover", fail="1..13", **ONE_TREE)]
    for refusal in ("broken,5", "out-of-range,9", "overlap,0,1", "full,3", "device", "no-memory"):
        scenarios.append(line("prover", refuse=refusal))
    scenarios += [line("prover", keep=0, more=frame(10, bytes([number])).hex()) for number in range(6)]
    for count, section in ((1, 0), (1, LONG + 1), (1, 2**32 - 1), (0, LONG), (2, LONG), (2, 1), (4097, LONG), (2**32 - 1, LONG)):
        scenarios.append(line("prover", keep=0, more=grant(0, count, section)))
    scenarios += [line("prover", keep=0, more=grant(start, 1, LONG)) for start in (1, 2**64 - 1)]
    for circuit, count in (("many_inputs.txt", 4096), ("more_inputs.txt", 4097)):
        words = {"circuit": circuit, "section": 1, "refuse": "device", "keep": 0, "more": grant(0, count, 1)}
        scenarios.append(line("prover", **words))
    return scenarios + [line("verifier", circuit="more_inputs.txt", section=1)]


def run(words: str, **given: object) -> Scenario:
    named = {name.replace("_", "-"): value for name, value in given.items()}
    return line("run", words=words.replace(" ", ","), **named)


REHEARSE = "rehearse and.txt 11 --section 1"
DEALT = "x.prover,x.verifier,x.prover.journal,x.verifier.journal"


def failing_runs() -> List[Scenario]:
    """Runs in which a call of the shelf or of the output fails, or a name is missing; and files that are dealt."""
    scenarios = [run(REHEARSE, shelf_fails=1), run("rehearse missing.txt 11"), run("eval missing.txt 11"), run("eval  11")]
    scenarios += [run(words, sink_fails=1) for words in (REHEARSE, "eval and.txt 11", "rehearse and.txt 1", "deal x --units 1")]
    scenarios += [run(REHEARSE, shelf_fails=2, sink_fails=2), run("rehearsal and.txt 11", shelf_fails=1, sink_fails=1)]
    scenarios += [run("deal x --units 1", shelf_fails=number) for number in range(1, 6)]
    scenarios.append(run("deal x --units 1", show=DEALT))
    scenarios.append(run("deal x --base 10 --units 1 --trees 1 --height 1", show=DEALT))
    return scenarios + [run("deal y --units 2", show="x.prover,y.prover,y.verifier.journal,z")]


def nodes() -> List[Scenario]:
    """New nodes of a verifier's file: what is stored, and why nothing is."""
    shown = "x.verifier.node.3,x.verifier.node.1023,x.verifier.journal"
    scenarios = [run(f"node x.verifier {number}", show=shown) for number in ("3", "1023", "0000000003")]
    scenarios.append(run("node x.verifier 3", units=5000, files="1,1,10", show=shown))
    scenarios += [run(f"node x.verifier 3 {more}".rstrip(), show=shown) for more in ("3", "--units 1", "--follow")]
    scenarios += [run(words) for words in ("node", "node x.verifier", "node x.verifier 1024", "node x.verifier -1", "node x.verifier x", "nodes x.verifier 3")]
    scenarios += [run("node x.verifier 3", damage=damage) for damage in ("0:0", "8:2", "8:0", "9:3", "40:1", "136:255")]
    scenarios += [run(words) for words in ("node x.prover 3", "node and.txt 3", "node missing 3")]
    scenarios += [run("node x.verifier 3", shelf_fails=number, show=shown) for number in (1, 2)]
    scenarios += [run("node x.verifier 3", shelf_lacks=number, show=shown) for number in (1, 2)]
    return scenarios + [run("node x.verifier 3", sink_fails=1), run("node x.verifier 3", sink_lacks=1)]


def large_runs() -> List[Scenario]:
    """Rehearsals of thousands of gates and units, and faults after thousands of tokens."""
    scenarios = [run("rehearse chain.txt BITS --section 1", circuit="chain.txt", bits="10")]
    tails = ["", "1 x 0 6003 INV", "3 1 0 1 6003 AND", "1 1 2 6003 EQ", "1 1 0 6004 INV", "1 1 6003 6003 INV"]
    tails += ["1 1 0 6001 INV", "1 1 0 6002 INV", "1 1 0 6003 INV 7"]
    for tail in tails:
        words = {"tail": tail.replace(" ", "_")} if tail else {}
        scenarios.append(run("rehearse long_chain.txt 10", circuit="long_chain.txt", **words))
    for name, section in (("many", 1), ("more", 1), ("most", LONG), ("too_many", LONG)):
        circuit = f"{name}_inputs.txt"
        scenarios.append(run(f"rehearse {circuit} BITS --section {section}", circuit=circuit))
    return scenarios + [run(REHEARSE, size=size) for size in (2**26, 2**26 + 1)] + large_texts()


def large_texts() -> List[Scenario]:
    """Texts of circuits whose numbers are at their limits, or above."""
    texts = ["16777217+3/", "16777216+3/", "0+16777217/", "16777217+16777217/", "0+16777216+1+16777217/", "1048577+3/", "0+1048577+1+1+0/"]
    texts += ["0+16777216+1+16777216+1+16777216/", "0+16777216+1+0+1+1/", "1+16777216+1+16777215+1+1+1+1+0+16777215+INV/"]
    texts += ["2+16777216+1+16777215+1+1+1+1+0+16777215+INV+1+1+0+16777216+INV/"]
    return [run("eval statements none", statements=text) for text in texts]


SERVE = "serve here x.verifier and.txt 1 --sessions 1"


def stopped_services() -> List[Scenario]:
    """Services that nobody calls, or that stop before they listen."""
    scenarios = [run(SERVE, door_fails=number) for number in range(4)]
    scenarios += [run(SERVE, shelf_fails=number) for number in (1, 2, 3)] + [run(SERVE, **ONE_TREE)]
    for file, word in (("x.verifier", "10"), ("x.verifier", "none"), ("missing", "1"), ("x.prover", "1"), ("and.txt", "1"), ("missing", "10")):
        scenarios.append(run(f"serve here {file} and.txt {word} --sessions 1"))
    scenarios.append(run("serve here x.verifier and.txt 1 --sessions 1 --section 0"))
    circuit = "too_many_inputs.txt"
    scenarios.append(run(f"serve here x.verifier {circuit} 1 --sessions 1", circuit=circuit))
    return scenarios + [run("serve here x.verifier long_chain.txt 1 --sessions 1", circuit="long_chain.txt")]


def dealings() -> List[Scenario]:
    """Files that are dealt, at the ends of what may be asked for: the version is the second from 65,536 units on."""
    shown = "x.prover:128,x.verifier:128,x.prover.journal,x.verifier.journal"
    scenarios = [run(f"deal x --units {units} --trees 1 --height 1 --base 10", show=shown) for units in (65535, 65536)]
    scenarios.append(run("deal x --units 65536", show=f"x.prover:{MANY_UNITS[0][0] - 32},x.verifier:{MANY_UNITS[1][0] - 32}"))
    words = ["1048576", "4294967296", "4294967297", "1099511627776", "1099511627777", "65536 --trees 1 --height 1 --base 1023"]
    return scenarios + [run(f"deal x --units {each}") for each in words]


def versions() -> List[Scenario]:
    """Dealt files of both versions: sessions and audits over them, and headers whose totals are at their limits."""
    log = b"".join(accepted(line("verifier").job().claim, None, LONG)).hex()
    scenarios = []
    for pair in ("1,2", "2,1", "2,2"):
        scenarios += [line("service", versions=pair, show="disk"), proof(versions=pair, show="disk")]
        scenarios += [line("service", **ONE_TREE, versions=pair), proof(**ONE_TREE, versions=pair)]
        scenarios += [run(AUDIT, log=log, versions=pair), run(AUDIT, log=log, versions=pair, units=2)]
        scenarios += [run(words, areas="one", versions=pair, show="disk") for words in MIGRATE.values()]
    for words in (SERVE, PROVE):
        scenarios += [run(words, versions=f"{version},{version}") for version in (0, 3)]
        for version in (1, 2):
            given = {"versions": f"{version},{version}"}
            totals = ["24:0", "24:0+28:1", "24:1+28:1", "24:0+29:1", "24:1+29:1", "31:1"]
            scenarios += [run(words, **given, damage=total) for total in totals]
            scenarios += [run(words, **given, **ONE_TREE, damage=total) for total in totals]
            scenarios += [run(words, **given, damage=place) for place in ("7:48", "11:1", "20:1", "96:1", "9:2", "135:255", "151:32", "159:32")]
            scenarios += [run(words, **given, **ONE_TREE, damage=place) for place in ("10:17", "10:0", "15:1", "16:9", "18:2", "200:1", "9:0")]
    return scenarios


def over(place: int, data: bytes) -> str:
    """The bytes of a dealt file from a place on that are others."""
    return "+".join(f"{place + i}:{byte}" for i, byte in enumerate(data))


PRIME, GREATEST = P.to_bytes(8, "little"), (P - 1).to_bytes(8, "little")
ZERO_AND_PRIME = bytes(8) + PRIME


def file_faults() -> List[Scenario]:
    """Dealt files of one unit with each fault: bytes of the header, elements, bits and the digest, and lengths."""
    header = [(0, b"\0"), (6, b"F"), (7, b"\0"), (7, b"2"), (7, b"3"), (8, b"\2"), (9, b"\2"), (24, b"\1\0\0\0\1"), (32, b"\0"), (64, b"\0")]
    header += [(place, b"\1") for place in (11, 20, 21, 22, 23, 31)] + [(24, b"\0")]
    direct = [(9, b"\1"), (10, b"\1"), (12, b"\1"), (15, b"\1"), (16, b"\x0a"), (19, b"\1"), (96, b"\1"), (127, b"\1"), (128, PRIME), (136, PRIME), (128, GREATEST)]
    extended = [(9, b"\0"), (10, b"\0"), (10, b"\x11"), (12, b"\0"), (12, b"\1\4"), (15, b"\1"), (16, b"\x09"), (16, b"\1\0\1"), (19, b"\1"), (96, b"\0"), (128, PRIME)]
    one_tree = {"files": "1,1,10"}
    # Of each side and kind: what else is written over it, and its length.
    subjects = [
        (PROVE, {}, direct + [(8, b"\1"), (1144, PRIME), (1152, b"\0"), (1183, b"\0")], 1184),
        (SERVE, {}, direct + [(8, b"\0"), (128, bytes(8)), (128, ZERO_AND_PRIME), (640, PRIME), (640, bytes(8)), (648, b"\0"), (679, b"\0")], 680),
        (PROVE, one_tree, extended + [(8, b"\1"), (296, PRIME), (303, b"\x20\2"), (304, b"\2"), (304, b"\0"), (305, b"\xff"), (320, b"\xff"), (321, b"\0"), (352, b"\0")], 353),
        (SERVE, one_tree, extended + [(8, b"\0"), (128, bytes(8)), (136, PRIME), (216, PRIME), (224, b"\xff"), (255, b"\xff"), (256, b"\0"), (287, b"\0")], 288),
    ]
    scenarios = []
    for words, files, changes, length in subjects:
        scenarios += [run(words, **files, damage=over(place, data)) for place, data in header + changes]
        scenarios += [run(words, **files, dealt_size=size) for size in (0, 7, 8, 127, 128, length - 1, length + 1)]
        # A want of bytes comes after all faults of the header, and before those of elements.
        scenarios += [run(words, **files, dealt_size=127, damage=place) for place in ("0:0", "8:2", "11:1")]
        scenarios += [run(words, **files, dealt_size=128, damage=place) for place in ("8:2+11:1", "11:1")]
        scenarios.append(run(words, **files, dealt_size=length - 1, damage=over(128, PRIME)))
        scenarios += [run(words, **files, damage=over(24, total)) for total in (b"\0\0\0\0\1", b"\0\0\0\0\0\1")]
        scenarios += [run(words, **files, damage=over(7, b"2" + data[1:])) for data in (MOST_HEADER, MOST_HEADER[:17] + b"\1" + MOST_HEADER[18:])]
        scenarios += [run(words, **files, damage=place) for place in (("10:16", "12:0+13:4", "16:0+17:0+18:1") if files else ())]
    return scenarios


# Bytes 7 to 31 of a direct file's header with as many units as the second version may have.
MOST_HEADER = b"2" + bytes(21) + b"\1" + bytes(2)


def limits() -> List[Scenario]:
    """Numbers of sessions and workers at their limits and beyond, with nobody at the door."""
    serve = "serve here x.verifier and.txt 1"
    numbers = [(0, 1), (1, 0), (65537, 1), (1, 1025), (65536, 1), (1, 1024)]
    scenarios = [run(f"{serve} --sessions {sessions} --workers {workers}") for sessions, workers in numbers]
    # Words of many digits, and many words.
    long = "0" * 9999 + "1"
    scenarios += [run(f"rehearse and.txt 11 --section {long}"), run("rehearse and.txt 11" + f" {long[-100:]}" * 600)]
    return scenarios + [run(f"{serve} --workers 2"), run(f"{SERVE} --workers 2 --workers 2"), run(f"{SERVE} --logs")]


def journals() -> List[Scenario]:
    """Journals that are refused: the disk fails, or they are short, or a byte of their header or of a body is another."""
    scenarios = [run(SERVE, disk_fails=number) for number in range(1, 10)]
    scenarios.append(run(SERVE, disk_fails=1, door_fails=1))
    scenarios.append(run("serve here x.prover and.txt 1 --sessions 1", disk_fails=1))
    circuit = "too_many_inputs.txt"
    scenarios.append(run(f"serve here x.verifier {circuit} 1 --sessions 1", circuit=circuit, disk_fails=1))
    scenarios += [run(SERVE, journal_size=size, show="disk") for size in (0, 63, 64, 65, 95, 96, 128, 190, 191, 193)]
    scenarios += [run(SERVE, units=32, ceilings=ceilings, journal_size=size) for ceilings in (0, 16) for size in (96, 160, 255)]
    scenarios += [run(SERVE, journal_size=64, disk_fails=number) for number in range(3, 14)]
    headers = ["0:0", "7:50", "8:0", "8:1", "8:2", "8:4", "9:1", "15:255", "15:90", "16:2", "23:1", "24:0", "24:2", "31:1", "32:0", "63:0"]
    scenarios += [run(SERVE, journal_set=place, show="disk") for place in headers]
    scenarios += [run(SERVE, units=32, ceilings=16, journal_set=place) for place in ("96:17", "96:0", "97:1", "103:1", "104:1", "111:1", "112:1")]
    scenarios += [run(SERVE, units=32, ceilings=32, journal_set=place) for place in ("128:16", "96:32", "159:91")]
    return scenarios + [run(SERVE, units=20, ceilings=20, journal_set=place) for place in ("128:20", "128:19", "128:32")]


def served(peers: int, sessions: Optional[int] = None, **words: object) -> Scenario:
    """A service of several peers, one after the other."""
    named = {name.replace("_", "-"): value for name, value in words.items()}
    return line("service", peers=peers, sessions=sessions or peers, workers=1, **named)


TEN_UNITS = {"circuit": "adder64.txt", "bits": "10", "section": 3}


def leases() -> List[Scenario]:
    """Services of several sessions, whose units come from a new journal, or from a ceiling on."""
    scenarios = [served(2, units=32, show="disk"), served(2, show="disk"), served(3), served(0, 2, units=32, show="disk")]
    scenarios += [served(3, 2, units=32), served(2, 5, units=32), served(17, units=32, show="disk")]
    scenarios += [served(2, **ONE_TREE, show="disk"), served(3, **TEN_UNITS, units=32, show="disk")]
    scenarios += [served(4, **TEN_UNITS, units=25, show="disk"), served(2, **TEN_UNITS, units=9, show="disk")]
    scenarios += [served(1, units=32, ceilings=16, start=16, show="disk"), served(1, units=16, ceilings=16, start=16, show="disk")]
    scenarios.append(served(5, units=20, ceilings=16, start=16, show="disk"))
    scenarios.append(served(1, units=32, journal_size=160, show="disk"))
    return scenarios + [served(2, **TEN_UNITS, units=36, ceilings=16, start=16, show="disk")]


def stops() -> List[Scenario]:
    """Runs that stop in a call of the disk, and what a crash leaves: the next run starts with the old ceiling or claims, or with the new."""
    scenarios = []

    def stopped(kind: Callable[..., Scenario], calls: Iterable[int], leftovers: Iterable[str] = ("old", "new", "0", "90"), **words: object) -> None:
        given = {"show": "disk", **words}
        scenarios.extend(kind(**given, disk_fails=call, crash=left) for call in calls for left in leftovers)

    # The choice and the start make eight calls over a new journal, and a put four: the body, a sync, the gate and a sync.
    serve, filled = functools.partial(served, 1), ("90",)
    stopped(serve, range(1, 9), filled, units=32)
    stopped(serve, range(9, 13), units=32)
    stopped(serve, range(10, 14), units=48, ceilings=16, start=16)
    stopped(proof, range(1, 9), filled, units=10)
    stopped(proof, range(9, 13), units=10)
    stopped(proof, range(1, 12), filled, units=10, slots=4, claims="0..4", start=6)
    stopped(proof, range(12, 16), units=10, slots=4, claims="0..4", start=6)
    # Over two slots in use they make thirteen. A compaction writes a generation and each slot, syncs, and writes and syncs a gate. Where the
    # other head is open, it is closed and synced before.
    full = {"units": 10, "slots": 2, "claims": "0..2+4..6", "start": 2}
    stopped(proof, range(14, 20), **full)
    stopped(proof, range(14, 22), **full, heads="2,3")
    stopped(proof, range(14, 20), **full, areas="moved", heads="0,2")
    full = {"files": "1,1,10", "ceilings": 65536, "start": 65536, "units": 65568}
    stopped(serve, (6000, 8202), ("90",), **full)
    stopped(serve, (8203,), ("new",), **full)
    stopped(functools.partial(run, MIGRATE["prover"]), range(7, 25), ("new", "90"), **FIRST_CLAIMS)
    stopped(functools.partial(run, MIGRATE["verifier"]), range(7, 20), ("new", "90"), **FIRST_CEILINGS)
    return scenarios


def failing_services() -> List[Scenario]:
    """Services of several sessions in which calls of the disk, the door and the output fail, or one peer is not honest."""
    scenarios = [served(2, units=32, disk_fails=number, show="disk") for number in range(1, 14)]
    scenarios += [served(3, **TEN_UNITS, units=32, disk_fails=number, show="disk") for number in range(12, 18)]
    scenarios += [served(2, **TEN_UNITS, units=16, disk_fails=9), served(3, disk_fails=9)]
    scenarios += [served(2, units=32, door_fails=number) for number in range(1, 6)]
    scenarios += [served(2, units=32, outputs=0, door_fails=3), served(3, door_fails=4), served(2, units=32, sink_fails=1)]
    for peer in range(3):
        scenarios += [served(3, units=32, peer=peer, cut=cut) for cut in ("0..1", "101..104", "130..132", "164..165")]
        scenarios += [served(3, units=32, peer=peer, fail="1..10"), served(3, units=32, peer=peer, change="101..103:1")]
    scenarios += [served(3, peer=1, keep=101, more="02"), served(3, peer=1, fail="1..3"), served(3, peer=0, change="136..137:1")]
    return scenarios + [served(3, units=2, peer=0, change="157..158:1"), served(2, outputs=0)]


def logged_services() -> List[Scenario]:
    """Services that keep the logs of their sessions, and stores that fail."""
    shown = {"logs": "l", "show": "l,l.0,l.1,l.2"}
    scenarios = [line("service", **shown), line("service", **shown, outputs=0), line("service", **shown, keep=50), line("service", **shown, keep=110)]
    scenarios += [served(3, units=32, **shown), served(3, units=2, **shown), served(3, units=32, peer=1, keep=102, **shown)]
    scenarios += [served(3, units=32, shelf_fails=number, **shown) for number in range(1, 7)]
    scenarios += [served(3, units=2, shelf_fails=number, **shown) for number in (3, 4, 5)]
    scenarios += [served(3, disk_fails=9, **shown), served(2, units=32, shelf_fails=4, sink_fails=1, **shown)]
    scenarios.append(line("service", logs="x.verifier", show="x.verifier,x.verifier.0"))
    words = {"ceilings": 16, "start": 16, "units": 32, "logs": "k", "show": "k.16,k.17,disk"}
    return scenarios + [served(2, **words)]


def followed_services() -> List[Scenario]:
    """Services that say where they listen, how many units are left, and each session's line when it ends."""
    shown = {"follow": 1, "logs": "l", "show": "l.0,l.1,l.2"}
    scenarios = [line("service", follow=1), line("service", **shown, outputs=0), line("service", follow=1, keep=50), line("service", **ONE_TREE, follow=1)]
    scenarios += [served(3, units=40, **shown), served(3, units=2, **shown), served(2, ceilings=16, start=16, units=32, **shown)]
    scenarios += [served(2, statements=BOTH, units=32, follow=1), served(2, units=32, follow=1, door_fails=1), served(2, units=32, follow=1, door_fails=3)]
    scenarios.append(line("service", circuit="chain.txt", bits="10", section=1, units=300, follow=1))
    return scenarios + [run("prove here x.prover and.txt 11 1 --follow"), run("serve here x.verifier and.txt 1 --sessions 1 --follow --follow")]


def files_of_bits() -> List[Scenario]:
    """Bits that files give, and files that give none."""
    said = {"11": "31310a", "11 too": "3131", "none": "6e6f6e65", "none too": "6e6f6e650a", "1": "310a", "0": "30", "": "", "ended": "0a"}
    bad = {"12": "3132", "two ends": "31310a0a", "two": "31310d0a", "space": "2031", "nones": "6e6f6e6573", "cut none": "6e6f6e", "x": "31317831"}
    files = {**said, **bad}
    scenarios = [run("eval and.txt @log", log=text) for text in files.values()]
    scenarios += [run("rehearse and.txt @log", log=text) for text in files.values()]
    scenarios += [run("rehearse and.txt 1 --public @log", log=text) for text in ("310a", "313131", "6e6f6e65", "3132", "32")]
    scenarios += [run("rehearse and.txt @log --public 111", log=text) for text in ("30", "32")]
    scenarios += [run("prove here x.prover and.txt @log 1", log=text) for text in ("3131", "3130", "3132")]
    scenarios += [run("prove here x.prover and.txt 11 @log", log=text) for text in ("31", "30", "3132", "3131", "")]
    scenarios += [run("serve here x.verifier and.txt @log --sessions 1", log=text) for text in ("31", "3132", "3131")]
    scenarios += [run("serve here x.verifier and.txt 1 --sessions 1 --public @log", log=text) for text in ("31", "32", "313131")]
    scenarios += [run("audit and.txt @log x.prover x.verifier missing", log=text) for text in ("31", "32", "3131")]
    scenarios += [run(words) for words in ("eval and.txt @missing", "eval and.txt @", "eval @log 11", "eval missing @log", "rehearse and.txt 2 --public @log")]
    scenarios += [run("eval wide_inputs.txt @log", circuit="wide_inputs.txt", log="3130" * 2499 + text) for text in ("31310a", "3130", "3132", "31")]
    scenarios += [run("eval and.txt @log", log="3131", shelf_fails=number) for number in (1, 2, 3)]
    scenarios += [run("eval and.txt @log", log="3132", shelf_fails=number) for number in (1, 2, 3)]
    scenarios += [run("eval and.txt @log", log=text, shelf_lacks=number) for text in ("3131", "3132") for number in (1, 2)]
    return scenarios + [run("eval and.txt @log", log="3132", sink_fails=1), run("eval missing @log", log="3132"), run("eval statements @log", log="3132")]


def statuses() -> List[Scenario]:
    """What is said to be left of dealt files, and why nothing is."""
    scenarios = [run("status x.verifier"), run("status x.prover", units=40), run("status x.verifier and.txt", units=40, ceilings=16)]
    scenarios += [run("status x.prover and.txt", units=40, claims="0..3+7..9"), run("status x.prover chain.txt", circuit="chain.txt", units=300)]
    scenarios += [run(f"status x.{side} chain.txt", circuit="chain.txt", files="1,1,10", units=300) for side in ("prover", "verifier")]
    scenarios += [run("status x.verifier most_inputs.txt", circuit="most_inputs.txt", units=5000), run("status x.verifier more_inputs.txt", circuit="more_inputs.txt", units=5000)]
    scenarios += [run(words) for words in ("status", "status x.verifier and.txt more", "status x.verifier --follow", "status missing", "status x.verifier missing", "status and.txt")]
    scenarios += [run(f"status x.{side}", damage=damage) for side in ("prover", "verifier") for damage in ("0:0", "8:2", "8:1", "8:0", "9:3", "40:1", "136:255")]
    scenarios += [run("status x.verifier and.txt", shelf_fails=number) for number in (1, 2, 3)] + [run("status x.verifier and.txt", shelf_lacks=number) for number in (1, 2)]
    scenarios += [run(f"status x.{side}", disk_fails=number, units=40) for side in ("prover", "verifier") for number in range(1, 8)]
    return scenarios + [run("status x.verifier", sink_fails=1), run("status x.verifier", sink_lacks=1)]


def services() -> List[Scenario]:
    """Services of one session, with peers that are honest, end, change a byte or fail."""
    scenarios = [line("service"), line("service", section=1), line("service", bits="0", section=1), line("service", **ONE_TREE)]
    for section, units in ((LONG, 64), (1, 128)):
        scenarios.append(line("service", circuit="chain.txt", bits="10", section=section, units=units))
    scenarios += [line("service", cut="0..166"), line("service", change="0..165:1"), line("service", fail="1..10")]
    scenarios += [line("service", **{name: number}) for name, number in (("door-fails", 1), ("door-fails", 2), ("sink-fails", 1))]
    scenarios += [line("service", outputs="0"), line("service", pieces=7)]
    scenarios.append(line("service", **ONE_TREE, pieces=3))
    scenarios.append(line("service", **{"outputs": "0", "sink-fails": 1}))
    return scenarios + [line("service", circuit="five_gates.txt", bits="1101", section=1, files="1,1,10")]


def proof(**words: object) -> Scenario:
    return line("proof", **{name.replace("_", "-"): value for name, value in words.items()})


TEN_TREES = {"files": "1,1,10", "units": 10}


def honest_proofs() -> List[Scenario]:
    """Proofs to honest verifiers, over a new journal or with earlier claims in it."""
    scenarios = [proof(show="disk"), proof(section=1, more="00", show="disk"), proof(bits="0")]
    scenarios += [proof(**ONE_TREE, more="00", show="disk"), proof(**EIGHT_TREES)]
    scenarios += [proof(**words, pieces=pieces) for words in ({}, ONE_TREE) for pieces in (1, 7)]
    scenarios += [proof(circuit="five_gates.txt", bits=f"{bits:04b}", section=2) for bits in range(16)]
    five = {"circuit": "five_gates.txt", "bits": "1101", "section": 3, "files": "2,2,10"}
    scenarios.append(proof(**five, units=4, start=1, show="disk"))
    scenarios.append(proof(circuit="no_wires.txt", bits="none"))
    scenarios += [proof(circuit="no_outputs.txt", bits=bit) for bit in (0, 1)]
    scenarios.append(proof(**TEN_UNITS, units=32, start=5, show="disk"))
    adder = {"circuit": "adder64.txt", "bits": "10", "files": "2,6,10"}
    scenarios.append(proof(**adder, units=8, start=2, show="disk"))
    for section, units in ((LONG, 64), (1, 128)):
        scenarios.append(proof(circuit="chain.txt", bits="10", section=section, units=units, show="disk"))
    scenarios.append(proof(circuit="chain.txt", bits="10", section=1000, **EIGHT_TREES))
    for claims, start in (("0..4", 4), ("5..6+0..3", 3), ("3..4+0..1", 1), ("5..10+4..5+0..2", 2)):
        scenarios.append(proof(**TEN_TREES, claims=claims, start=start, show="disk"))
    scenarios.append(proof(units=2, claims="0..1", start=1, show="disk"))
    # The hello has the digest of the text as it stands, with what is behind its last gate.
    scenarios += [proof(tail="_"), proof(size=4096)]
    return scenarios + [proof(circuit="more_inputs.txt", section=1)]


def refused_sends() -> List[Scenario]:
    """Sessions and services in which the send of a refusal fails, the third call of the link: they end as if it was sent."""
    none = sha256(b"").hex()
    # A hello of another id, circuit or outputs, and one in the long form of another version, of other public bits, or of none.
    greetings = [("set", "5:0"), ("set", "37:0"), ("set", "69:0"), ("set", "101:2")]
    long_hello = frame(1, HELLO[5:101] + bytes([2])).hex()
    scenarios = []
    for end, number in (("verifier", "3..5"), ("service", "3..5")):
        scenarios += [line(end, **{name: value}, fail=number) for name, value in greetings]
        for version, digest in (("01", none), ("02", none[::-1]), ("02", none)):
            more = "01" + "81000000" + long_hello[10:-2] + version + digest
            scenarios.append(line(end, keep=0, more=more, fail=number))
    scenarios += [line("service", statements=BOTH, set=place, fail="3..5") for place in ("5:0", "37:0", "101:2")]
    # No units are left, or the journal fails in this lease or failed in one before.
    scenarios += [served(2, peer=1, fail="3..5", show="disk"), served(3, 3, peer=2, fail="3..5"), served(2, **ONE_TREE, peer=1, fail="3..5")]
    scenarios += [served(2, units=32, disk_fails=9, peer=peer, fail="3..5", show="disk") for peer in (0, 1)]
    return scenarios + [served(1, disk_fails=number, fail="3..4") for number in range(8, 14)]


def lacking_runs() -> List[Scenario]:
    """Runs in which a call of the shelf, of the output or of the door finds no memory."""
    log = b"".join(accepted(line("verifier").job().claim, None, LONG)).hex()
    loads = [(REHEARSE, 1, {}), ("eval and.txt 11", 1, {}), (SERVE, 2, {}), (PROVE, 2, {}), (AUDIT, 4, {"log": log}), ("deal x --units 1", 4, {"show": DEALT})]
    loads += [(MANY, 4, {"statements": BOTH})]
    loads += [(words, 1, {"areas": "one", "show": "disk"}) for words in MIGRATE.values()]
    scenarios = [run(words, **given, shelf_lacks=number) for words, most, given in loads for number in range(1, most + 1)]
    scenarios += [run(words, **given, sink_lacks=1) for words, _, given in loads]
    scenarios += [run(words, sink_lacks=1) for words in ("eval", "eval and.txt 1", "eval missing 11", "prove here x.prover and.txt 10 1")]
    scenarios += [run("rehearse --gates 1000 --number 7", sink_lacks=1), run("rehearse chain.txt BITS --section 1", circuit="chain.txt", bits="10", sink_lacks=1)]
    scenarios += [run("rehearse chain.txt BITS", circuit="chain.txt", bits="10", shelf_lacks=1), run("deal x --units 65535 --trees 1 --height 1 --base 10", shelf_lacks=2)]
    scenarios += [run("eval missing 11", shelf_lacks=1), run("eval and.txt 11", shelf_fails=1, shelf_lacks=1), run(SERVE, shelf_lacks=1, sink_lacks=1)]
    scenarios += [run(words, door_lacks=number) for words in (SERVE, PROVE) for number in (1, 2)]
    return scenarios + [run(SERVE, disk_fails=1, sink_lacks=1), run(SERVE, door_lacks=1, sink_fails=1)]


def lacking_sessions() -> List[Scenario]:
    """Sessions in which a call of the link finds no memory: what the end has said stands, and so do the units that it was granted."""
    scenarios = [line("both", lack="1..10"), line("both", **ONE_TREE, lack="1..14"), line("both", **PUBLIC, lack="1..10")]
    scenarios += [line("both", circuit="chain.txt", bits="10", section=1, units=128, lack="1..40")]
    scenarios += [line("both", **TEN_UNITS, units=10, lack="1..10"), line("verifier", before=1, lack="1..10")]
    scenarios += [line("verifier", refuse=refusal, lack="2..5") for refusal in ("exhausted,0,1,1", "device", "broken,5")]
    scenarios += [line("verifier", **{"set": place}, lack="3..5") for place in ("5:0", "37:0", "69:0", "101:2")]
    scenarios += [line("verifier", outputs=0, lack="7..10"), line("verifier", pieces=7, lack="1..40")]
    return scenarios + [line("prover", refuse="device", lack="1..5"), line("prover", pieces=3, lack="1..20")]


def lacking_ends() -> List[Scenario]:
    """Services and proofs in which a call finds no memory: other sessions stand, and so do units that were granted or claimed."""
    scenarios = [line("service", lack="1..11", show="disk"), line("service", **ONE_TREE, lack="1..14"), line("service", outputs=0, lack="7..10")]
    for peers in (2, 4):
        for peer in range(peers):
            scenarios.append(served(peers, units=32, peer=peer, lack="1..10", logs="l", show="disk,l.0,l.1,l.2,l.3"))
        scenarios += [served(peers, units=32, door_lacks=number, logs="l", show="disk,l.0,l.1,l.2,l.3") for number in range(1, peers + 3)]
        scenarios += [served(peers, units=32, shelf_lacks=number, logs="l", show="l.0,l.1,l.2,l.3") for number in range(1, peers + 3)]
    scenarios += [served(2, units=32, sink_lacks=1, show="disk"), served(2, units=32, disk_fails=9, peer=1, lack="1..5", show="disk")]
    scenarios += [served(2, peer=1, lack="2..5"), served(3, peer=0, lack="4..6"), served(2, units=32, peer=0, lack="4..6", sink_fails=1)]
    scenarios += [served(2, units=32, peer=0, lack="4..6", door_fails=3), served(3, **TEN_UNITS, units=32, peer=1, lack="1..10", show="disk")]
    scenarios += [line("service", statements=BOTH, lack="1..10"), line("service", circuit="chain.txt", bits="10", section=1, units=128, lack="1..40")]
    scenarios += [proof(lack="1..11", show="disk"), proof(**ONE_TREE, lack="1..14", show="disk"), proof(section=1, lack="4..8", sink_lacks=1)]
    scenarios += [proof(door_lacks=number, show="disk") for number in (1, 2)] + [proof(sink_lacks=1, show="disk"), proof(keep=34, sink_lacks=1)]
    scenarios += [proof(shelf_lacks=number, show="disk") for number in (1, 2, 3)] + [proof(outputs=0, sink_lacks=1)]
    return scenarios + [proof(circuit="chain.txt", bits="10", section=1000, **EIGHT_TREES, lack="1..12", show="disk")]


def unsuited_grants() -> List[Scenario]:
    """Proofs to verifiers that refuse, or whose grant does not suit."""
    refusals = [frame(10, bytes([number])).hex() for number in range(6)]
    scenarios = [proof(keep=0, more=refusal, show="disk") for refusal in refusals]
    numbers = [(1, 0), (1, LONG + 1), (1, 2**32 - 1), (0, LONG), (2, LONG), (2, 1), (4097, LONG)]
    for count, section in numbers + [(2**32 - 1, LONG)]:
        scenarios.append(proof(keep=0, more=grant(0, count, section), show="disk"))
    for circuit, count in (("many_inputs.txt", 4096), ("more_inputs.txt", 4097)):
        scenarios.append(proof(circuit=circuit, section=1, keep=0, more=grant(0, count, 1)))
    return scenarios


def taken_units() -> List[Scenario]:
    """Proofs to verifiers that grant units that are claimed or above the total; and full journals."""
    scenarios = []
    for start in (8, 9, 10, 2**64 - 2, 2**64 - 1):
        scenarios.append(proof(**TEN_TREES, keep=0, more=grant(start, 2, LONG), show="disk"))
    spans = [("0..4", 3), ("0..4", 2), ("4..6", 3), ("5..6+3..5", 4), ("3..5+5..6", 4), ("4..5+5..6", 4)]
    for claims, start in spans + [("0..10", 0)]:
        scenarios.append(proof(**TEN_TREES, claims=claims, start=start, show="disk"))
    scenarios.append(proof(**TEN_TREES, claims="0..4", keep=0, more=grant(9, 2, LONG)))
    # Ranges that touch are one.
    claims = "4..6+0..1+8..9+1..2+7..8+2..4+6..7".split("+")
    scenarios += [proof(units=10, claims="+".join(claims[: number + 1]), start=claims[number][0]) for number in range(7)]
    one_slot = {"units": 4, "claims": "0..1", "slots": 1, "show": "disk"}
    scenarios += [proof(**one_slot, start=start) for start in (0, 1, 3)]
    scenarios.append(proof(**one_slot, keep=0, more=grant(4, 1, LONG)))
    return scenarios + [proof(units=2, claims="0..1+1..2", start=1), proof(claims="0..1")]


def wrong_verdicts() -> List[Scenario]:
    """Proofs to verifiers that reject, end or change a byte."""
    numbers = ((0, 7), (1, 0), (1, 258), (2, 0), (2, 2**32 - 1), (3, 0))
    verdicts = [frame(9, struct.pack("<BI", verdict, number)).hex() for verdict, number in numbers]
    scenarios = [proof(keep=34, more=verdict) for verdict in verdicts]
    scenarios += [proof(keep=34, more=verdict, sink_fails=1) for verdict in (verdicts[1], verdicts[3])]
    scenarios += [proof(cut="0..45", show="disk"), proof(pieces=3, cut="0..45")]
    scenarios += [proof(change=f"0..44:{mask}", show="disk") for mask in (1, 128)]
    scenarios += [proof(units=2, change="0..44:1", show="disk"), proof(**ONE_TREE, cut="0..135")]
    scenarios.append(proof(**ONE_TREE, change="0..134:1"))
    return scenarios + [proof(**ONE_TREE, set=place) for place in ("133:1", "129:0", "129:2")]


def failing_proofs() -> List[Scenario]:
    """Proofs in which a call of the link, the disk, the door, the shelf or the output fails."""
    scenarios = [proof(fail="1..9", show="disk"), proof(fail="1..13", **ONE_TREE, show="disk")]
    scenarios += [proof(disk_fails=number, show="disk") for number in range(1, 14)]
    claims = {"claims": "0..1+6..8", "start": 3}
    scenarios += [proof(**TEN_TREES, **claims, disk_fails=number, show="disk") for number in range(1, 20)]
    scenarios += [proof(door_fails=number, show="disk") for number in (1, 2)]
    scenarios += [proof(shelf_fails=number, show="disk") for number in (1, 2, 3)]
    scenarios += [proof(sink_fails=number) for number in (1, 2)] + [proof(disk_fails=1, door_fails=1)]
    scenarios += [proof(keep=keep, sink_fails=1) for keep in (0, 34)] + [proof(fail="1..2", sink_fails=1)]
    scenarios += [proof(disk_fails=9, sink_fails=1), proof(claims="0..1", sink_fails=1)]
    return scenarios + [proof(disk_fails=12, fail="5..6")]


def flipped(word: str, place: int) -> str:
    return word[:place] + {"0": "1", "1": "0"}[word[place]] + word[place + 1 :]


def false_proofs() -> List[Scenario]:
    """Proofs of outputs that the circuit does not give: no dealt file, journal or verifier is asked for."""
    scenarios = [proof(bits="10", outputs=1, show="disk"), proof(outputs=0, show="disk")]
    calls = [("shelf_fails", 1), ("shelf_fails", 2), ("disk_fails", 1), ("door_fails", 1), ("sink_fails", 1)]
    scenarios += [proof(bits="10", outputs=1, **{name: number}) for name, number in calls]
    five = {"circuit": "five_gates.txt", "bits": "1101"}
    scenarios += [proof(**five, outputs=outputs) for outputs in ("000", "110", "101", "011")]
    for circuit, places in (("adder64.txt", (0, 31, 63)), ("chain.txt", (3,))):
        words = {"circuit": circuit, "bits": "10"}
        given = bristol.word_of(list(line("both", **words).job().outputs))
        scenarios += [proof(**words, outputs=flipped(given, place)) for place in places]
    return scenarios


PROVE = "prove here x.prover and.txt 11 1"


def stopped_proofs() -> List[Scenario]:
    """Proofs whose files, bits or outputs are refused, or with nobody at the address."""
    scenarios = [run(PROVE, show="disk")] + [run(PROVE, door_fails=number) for number in (1, 2)]
    scenarios += [run(PROVE, shelf_fails=number) for number in (1, 2, 3)]
    wrong = ["101 1", "1 1", "none 1", "11 none", "11 10", "101 10", "10 10", "10 none"]
    scenarios += [run(f"prove here x.prover and.txt {words}") for words in wrong]
    for file in ("x.verifier", "missing", "and.txt"):
        scenarios += [run(f"prove here {file} and.txt {words}") for words in ("11 1", "11 0", "101 1")]
    scenarios.append(run("prove here x.verifier and.txt 11 1", **ONE_TREE))
    scenarios.append(run("prove here x.verifier and.txt 11 1", disk_fails=1))
    scenarios += [run("prove here x.prover missing.txt 11 1"), run("prove here x.prover x.prover 11 1")]
    scenarios.append(run("prove  x.prover and.txt 11 1"))
    for tail in ({}, {"tail": "1_1_0_6002_INV"}, {"tail": "1_1_0_6003_INV"}):
        scenarios.append(run("prove here x.prover long_chain.txt 10 1", circuit="long_chain.txt", **tail))
    scenarios.append(run("prove here x.prover too_many_inputs.txt 1 1", circuit="too_many_inputs.txt"))
    return scenarios + [run(PROVE, size=2**26 + 1)]


def words_of_no_proof() -> List[Scenario]:
    """Words of `prove` that ask for nothing."""
    words = ["prove", "prove here", "prove here x.prover and.txt 11", "proves here x.prover and.txt 11 1"]
    more = ["1", "--section 1", "--sessions 1", "--extended", "--", "--logs l"]
    words += [f"{PROVE} {word}" for word in more] + ["prove --section 1 here x.prover and.txt 11 1"]
    words += ["prove -here x.prover and.txt 11 1", "prove here x.prover and.txt -11 1"]
    bits = ["12 1", " 1", "11 2", "11 ", "1_1 1", "None 1"]
    words += [f"prove here x.prover and.txt {word}" for word in bits]
    scenarios = [run(word) for word in words] + [run(f"{PROVE} 1", sink_fails=1)]
    return scenarios + [run(f"{PROVE} 1", shelf_fails=1, disk_fails=1, door_fails=1)]


def journals_of_claims() -> List[Scenario]:
    """Journals of claims: the disk fails, or they are short, or a byte of the header or a claim is wrong."""
    scenarios = [run(PROVE, disk_fails=number) for number in range(1, 10)]
    scenarios.append(run(PROVE, disk_fails=1, door_fails=1))
    scenarios += [run(PROVE, units=4, claims="1..2+3..4", disk_fails=number) for number in range(1, 16)]
    scenarios += [proof(journal_size=size, show="disk") for size in (0, 63, 64, 65, 95, 96, 128, 190, 191, 193)]
    for claims in ("0..1", "0..1+2..3", "3..3+4..5", "0..2+1..3"):
        scenarios += [proof(units=10, claims=claims, journal_size=size, start=4) for size in (128, 447, 767, 769)]
    headers = ["0:0", "7:50", "8:0", "8:1", "8:3", "8:4", "9:1", "15:255", "15:90", "16:2", "23:1", "24:0", "24:2", "27:15", "27:16"]
    headers += ["28:1", "31:1", "32:0", "63:0"]
    scenarios += [proof(journal_set=place, show="disk") for place in headers]
    bodies = ["24:2", "24:0", "96:1", "103:1", "104:0", "104:2", "111:1"]
    scenarios += [proof(claims="0..1", journal_set=place) for place in bodies]
    wrong = ["2..2", "3..2", "0..11", "10..11", "0..4+3..5", "3..5+0..4", "0..4+0..4", "0..10+4..5"]
    wrong += ["0..4+3..5+7..7", "7..7+0..4+3..5"]
    scenarios += [proof(units=10, claims=claims, start=5, show="disk") for claims in wrong]
    places = ["112:1", "126:255", "127:91", "127:0", "159:90"]
    return scenarios + [proof(units=10, claims="0..4", journal_set=place, show="disk") for place in places]


def areas() -> List[Scenario]:
    """Journals of one area, which are refused; and journals of two areas behind one that was migrated."""
    scenarios = [run(words, areas="one", show="disk") for words in (SERVE, PROVE)]
    scenarios += [served(1, units=32, ceilings=16, start=16, areas="one", show="disk"), served(1, areas="one", disk_fails=4)]
    scenarios += [proof(units=4, claims="0..1", start=1, areas="one", show="disk"), proof(areas="one", disk_fails=4)]
    scenarios += [served(2, units=units, areas="moved", show="disk") for units in (1, 32)]
    scenarios.append(served(2, units=40, ceilings=16, start=16, areas="moved", heads="1,2", show="disk"))
    scenarios += [proof(areas="moved", show="disk"), proof(units=4, claims="1..2+3..4", start=2, areas="moved", show="disk")]
    scenarios.append(proof(units=4, claims="1..2+3..4", start=0, slots=2, areas="moved", heads="2,3", show="disk"))
    for words in (SERVE, PROVE):
        scenarios += [run(words, areas="moved", journal_size=size) for size in (63, 64, 95, 96, 97, 159, 160, 161, 286, 287, 289)]
        places = ["0:0", "8:2", "8:3", "14:1", "15:0", "15:91", "16:2", "24:0", "24:2", "32:0", "63:0"]
        places += ["96:0", "104:0", "104:1", "104:4", "111:90", "112:2", "120:0", "120:2", "128:0", "191:0", "160:0", "160:2", "287:90"]
        scenarios += [run(words, areas="moved", journal_set=place) for place in places]
    scenarios += [run(words, areas="moved", disk_fails=number) for words in (SERVE, PROVE) for number in range(1, 10)]
    scenarios += [served(1, areas="moved", disk_fails=number, show="disk") for number in range(9, 14)]
    return scenarios + [proof(areas="moved", disk_fails=number, show="disk") for number in range(9, 14)]


def heads() -> List[Scenario]:
    """Journals whose second area counts, or neither does, or a generation is one that there may not be."""
    most = 2**64 - 1
    scenarios = [run(words, heads=heads, show="disk") for words in (SERVE, PROVE) for heads in ("0,0", "2,0", "0,2", f"{most},0", "0,1", "1,1")]
    for words in (SERVE, PROVE):
        scenarios += [run(words, journal_set=place) for place in ("64:0", "64:2", "71:1", "95:0", "95:91", "128:1", "159:90")]
        scenarios += [run(words, heads="0,1", journal_set=place) for place in ("95:90", "128:0", "135:128", "159:0", "159:89")]
    given = {"units": 40, "ceilings": 32, "start": 32, "show": "disk"}
    scenarios += [served(1, **given, heads=heads) for heads in ("1,2", "2,1", "2,2", "33,1", "1,33", "34,33", "33,34", f"{most},1")]
    scenarios += [served(1, **given, heads="1,2", disk_fails=number) for number in range(6, 16)]
    given = {"units": 9, "claims": "0..2+3..4", "start": 5, "show": "disk"}
    scenarios += [proof(**given, heads=heads) for heads in ("1,2", "2,1", "2,2", "4,1", "1,4", "5,4", "4,5", f"1,{most}")]
    return scenarios + [proof(**given, heads="1,2", disk_fails=number) for number in range(6, 20)]


def full_claims() -> List[Scenario]:
    """Proofs over journals whose slots are all in use: the ranges are written anew, unless they are too many."""
    scenarios = []
    for start in range(10):
        scenarios.append(proof(units=10, slots=2, claims="3..4+6..7", start=start, show="disk"))
        scenarios.append(proof(units=10, slots=3, claims="7..9+0..2+4..5", start=start, show="disk"))
    joined = {"units": 10, "slots": 2, "claims": "0..1+1..2", "show": "disk"}
    scenarios += [proof(**joined, start=start) for start in (1, 2, 5, 9, 10)]
    scenarios += [proof(**joined, start=5, disk_fails=number) for number in range(1, 21)]
    scenarios += [proof(**joined, start=5, heads=heads) for heads in ("1,2", "2,1", "0,3", "3,3", "3,0", "2,3", "4,3")]
    scenarios += [proof(**joined, start=5, heads="2,3", disk_fails=number) for number in range(12, 24)]
    scenarios += [proof(**joined, start=5, areas="moved", heads="0,2", disk_fails=number) for number in range(12, 22)]
    scenarios += [proof(units=1, slots=3), proof(units=10, slots=2, claims="0..4+5..10", start=4, show="disk")]
    for claims, start in (("0..5+25..32", 5), ("0..5+15..20", 5), ("0..2+20..21", 5)):
        scenarios.append(proof(**TEN_UNITS, units=32, slots=2, claims=claims, start=start, show="disk"))
    return scenarios + [proof(**TEN_UNITS, units=32, slots=1, claims="10..12", start=start, show="disk") for start in (0, 12, 13)]


def full_ceilings() -> List[Scenario]:
    """Services over journals whose slots are all in use, which then say the next ceiling alone."""
    many = {"files": "1,1,10", "ceilings": 65536, "start": 65536, "show": "disk"}
    return [served(10, **many, units=65568), served(2, **many, units=65552, heads="1,2", disk_fails=8205)]


def statement_line(**words: object) -> str:
    """The line of a file of statements about what a scenario of these words is about."""
    job = line("verifier", **words).job()
    parts = [str(words.get("circuit", "and.txt")), bristol.word_of(job.claim.public_bits()), bristol.word_of(list(job.outputs))]
    return "+".join(parts) + "/"


BOTH = statement_line() + statement_line(**PUBLIC)


def sent_at(start: int, **words: object) -> str:
    """What an honest prover of this scenario sends to one that grants units from this one on."""
    return hold(line("verifier", **words, units=64).job(), start)[0].hex()


def many_services() -> List[Scenario]:
    """Services of several statements: with provers of each, of none, and of sessions of different sizes."""
    scenarios = [served(2, statements=BOTH, units=32, logs="l", show="l.0,l.1,disk"), served(2, **PUBLIC, statements=BOTH, units=32, show="disk")]
    scenarios += [served(2, **PUBLIC, statements=BOTH, units=2, peer=peer, keep=0, more=sent_at(peer)) for peer in (0, 1)]
    scenarios += [served(1, public=2, statements=BOTH), served(1, statements=BOTH, outputs=0), served(1, statements=BOTH[:-1])]
    scenarios += [served(1, statements=BOTH + BOTH), served(1, **PUBLIC, statements=statement_line() * 255 + statement_line(**PUBLIC))]
    scenarios += [line("service", statements=BOTH, **words) for words in ({"cut": "95..110"}, {"change": "95..105:1"}, {"fail": "1..10"})]
    scenarios += [line("service", **PUBLIC, statements=BOTH, change="95..110:1"), line("service", **ONE_TREE, statements=BOTH)]
    few, many = statement_line(**TEN_UNITS, public=64), statement_line(**TEN_UNITS)
    for units in (17, 18, 32):
        others = {"peer": 1, "keep": 0, "more": sent_at(line("verifier", **TEN_UNITS).job().units(3), **TEN_UNITS, public=64)}
        scenarios.append(served(2, **TEN_UNITS, statements=few + many, units=units, **others, show="disk"))
    return scenarios + [line("service", statements=BOTH, **{name: number}) for name in ("door-fails", "sink-fails") for number in (1, 2)]


MANY = "serve-many here x.verifier statements --sessions 1"


def statement_files() -> List[Scenario]:
    """Files of statements with each fault, and statements that no verifier takes."""
    lines = ["", "/", "//", "and.txt+none+1", "and.txt+none+1/", "and.txt+none+1//", "+and.txt+none+1/", "and.txt+none+1+/", "and.txt++none+1/"]
    lines += ["and.txt+none/", "and.txt+none+1+1/", "and.txt+2+1/", "and.txt+none+/", "and.txt+none+x/", BOTH + "x/", BOTH + "and.txt"]
    lines += [statement_line() * 256, statement_line() * 257, statement_line() * 257 + "x", "missing+none+1/", BOTH + "missing+none+1/"]
    lines += ["and.txt+111+1/", "and.txt+none+11/", "and.txt+111+11/", BOTH + "and.txt+none+none/", "x.verifier+none+1/", "missing+111+1/" + BOTH]
    scenarios = [run(MANY, statements=text) for text in lines if text] + [run(MANY), run(MANY, statements=BOTH, show="x.verifier,statements")]
    scenarios += [run(MANY, statements=BOTH, shelf_fails=number) for number in range(1, 6)]
    scenarios += [run(f"serve-many here {file} statements --sessions 1", statements=BOTH) for file in ("missing", "x.prover", "and.txt")]
    scenarios += [run(words) for words in ("serve-many", "serve-many here x.verifier statements", MANY + " --public 1", MANY + " more")]
    scenarios += [run("serve-many here x.verifier missing --sessions 1"), run(MANY + " --workers 0"), run(MANY + " --section 0")]
    large = statement_line(circuit="more_inputs.txt", section=1)
    return scenarios + [run(MANY + " --section 1", circuit="more_inputs.txt", statements=large, show="disk")]


AUDIT = "audit and.txt 1 x.prover x.verifier log"


MIGRATE = {side: f"migrate {side} x.{side}" for side in ("prover", "verifier")}
FIRST_CLAIMS = {"units": 4, "claims": "3..4+0..1", "areas": "one", "show": "disk"}
FIRST_CEILINGS = {"units": 40, "ceilings": 32, "areas": "one", "show": "disk"}


def migrations() -> List[Scenario]:
    """Runs of `migrate`: journals of one area that say nothing, something, or have all slots in use, and ones that were migrated."""
    by_prover, by_verifier = MIGRATE["prover"], MIGRATE["verifier"]
    scenarios = []
    for claims in ("", "0..1", "9..10", "0..1+2..3", "2..3+0..1", "0..1+1..2", "5..9+0..2+2..5+9..10", "8..9+6..7+4..5+2..3+0..1"):
        given = {"claims": claims} if claims else {}
        scenarios.append(run(by_prover, units=10, **given, areas="one", show="disk"))
        scenarios += [run(by_prover, units=10, slots=slots, **given, areas="one", show="disk") for slots in (5, 12)]
    scenarios += [run(by_prover, units=2, claims=claims, areas="one", show="disk") for claims in ("0..1+1..2", "1..2+0..1", "0..2")]
    scenarios += [run(by_prover, units=10, slots=1, areas="one", show="disk"), run(by_prover, **FIRST_CLAIMS, **ONE_TREE_FILES)]
    scenarios += [run(by_verifier, units=units, areas="one", show="disk") for units in (1, 16, 17, 100)]
    for units, ceilings in ((1, 1), (16, 16), (20, 16), (20, 20), (40, 16), (40, 32), (40, 40), (100, 64), (100, 100)):
        scenarios.append(run(by_verifier, units=units, ceilings=ceilings, areas="one", show="disk"))
    scenarios += [run(by_verifier, **FIRST_CEILINGS, slots=slots) for slots in (1, 2, 4, 5)]
    moved = {"areas": "moved", "show": "disk"}
    scenarios += [run(words, **moved) for words in (by_prover, by_verifier)]
    scenarios += [run(by_prover, units=4, claims="1..2+3..4", **moved), run(by_verifier, units=40, ceilings=16, **moved)]
    scenarios += [run(words, areas="two", show="disk") for words in (by_prover, by_verifier)]
    return scenarios + damaged_migrations() + failing_migrations() + words_of_no_migration()


ONE_TREE_FILES = {"files": "1,1,10"}


def damaged_migrations() -> List[Scenario]:
    """Migrations of journals that are short, or of which a byte of the header or of a body is another."""
    scenarios = []
    for words, given, file in ((MIGRATE["prover"], FIRST_CLAIMS, 192), (MIGRATE["verifier"], FIRST_CEILINGS, 160)):
        for place in [*range(15), *range(16, 24), *range(28, 64)]:
            scenarios += [run(words, **given, journal_set=f"{place}:{byte}") for byte in (3, 128)]
        scenarios += [run(words, **given, journal_set=f"15:{byte}") for byte in (0, 1, 2, 89, 90, 91, 128, 165, 255)]
        scenarios += [run(words, **given, journal_set=place) for place in ("24:0", "24:1", "24:2", "24:5", "27:16")]
        for areas, sizes in (("one", (0, 1, 63, 64, 65, 95, 96, 97, 127, 128, 159, 160, 191, 193)), ("moved", (63, 64, 95, 96, 200))):
            scenarios += [run(words, **{**given, "areas": areas}, journal_size=size) for size in sizes]
        # Bytes behind the old journal are written over, up to the end of the new one, and bytes behind that stay.
        behind = (file, file + 63, file + 200, 600)
        scenarios += [run(words, **given, journal_size=601, journal_set=f"{place}:7") for place in behind]
        places = ["64:7", "79:1", "80:1", "94:255", "95:0", "95:91", "127:0", "127:91", "159:90", "159:0"]
        scenarios += [run(words, **given, journal_set=place) for place in places]
    # Where all slots are in use, the file ends before one more.
    full = {"units": 2, "claims": "0..1+1..2", "areas": "one", "show": "disk"}
    scenarios += [run(MIGRATE["prover"], **full, journal_set=place) for place in ("24:1", "24:3", "25:1", "26:128", "27:15", "27:16")]
    for place in ("64:17", "64:0", "65:1", "71:1", "72:1", "96:16", "96:48", "96:40", "96:17"):
        scenarios.append(run(MIGRATE["verifier"], **FIRST_CEILINGS, journal_set=place))
    wrong = ["2..2", "3..2", "0..11", "10..11", "0..4+3..5", "3..5+0..4", "0..4+0..4", "0..10+4..5", "0..2+2..4+1..3"]
    wrong += ["0..4+3..5+7..7", "7..7+0..4+3..5", "0..1+4..5+2..9+3..4"]
    return scenarios + [run(MIGRATE["prover"], units=10, claims=claims, areas="one", show="disk") for claims in wrong]


def failing_migrations() -> List[Scenario]:
    """Migrations in which a call of the disk, the shelf or the output fails, and dealt files that are missing, damaged or the other side's."""
    by_prover, by_verifier = MIGRATE["prover"], MIGRATE["verifier"]
    scenarios = [run(by_prover, **FIRST_CLAIMS, disk_fails=number) for number in range(1, 25)]
    scenarios += [run(by_verifier, **FIRST_CEILINGS, disk_fails=number) for number in range(1, 20)]
    scenarios += [run(words, areas="moved", disk_fails=number, show="disk") for words in (by_prover, by_verifier) for number in range(1, 5)]
    for side, given in (("prover", FIRST_CLAIMS), ("verifier", FIRST_CEILINGS)):
        other = {"prover": "verifier", "verifier": "prover"}[side]
        scenarios += [run(f"migrate {side} {file}", **given) for file in ("missing", f"x.{other}", "and.txt", "")]
        scenarios += [run(MIGRATE[side], **given, **{name: 1}) for name in ("shelf_fails", "sink_fails", "door_fails")]
        scenarios += [run(MIGRATE[side], **given, shelf_fails=1, disk_fails=1), run(MIGRATE[side], **given, disk_fails=1, sink_fails=1)]
        for damage in ("0:0", "7:51", "8:2", "9:1", "11:1", "24:5", "24:3", "28:1", "31:1", "40:0", "128:255+135:255", "300:1"):
            scenarios.append(run(MIGRATE[side], **given, damage=damage))
    return scenarios


def words_of_no_migration() -> List[Scenario]:
    """Words of `migrate` that ask for nothing, and others that say the same."""
    words = ["migrate", "migrate prover", "migrate prover x.prover x.prover", "migrate both x.prover", "migrate Prover x.prover", "migrate x.prover prover"]
    words += ["migrate prover x.prover --units 4", "migrate --prover x.prover", "migrate  x.prover", "migrate prover -x", "migrates prover x.prover"]
    same = ["migrate -- prover x.prover", "migrate prover -- x.prover", "migrate prover x.prover --"]
    return [run(each, **FIRST_CLAIMS) for each in words + same]


def audit_runs() -> List[Scenario]:
    """Runs of `audit`: what each answer prints, files that are refused, calls that fail, and words of no audit."""
    log = b"".join(accepted(line("verifier").job().claim, None, LONG)).hex()
    scenarios = [run(AUDIT, log=log), run(AUDIT, log=log[:-2]), run(AUDIT, log=log + "00"), run(AUDIT), run(AUDIT, log="00")]
    scenarios += [run(AUDIT, log=log, **{f"{name}_fails": number}) for name, most in (("shelf", 5), ("sink", 2)) for number in range(1, most)]
    scenarios += [run(AUDIT.replace(*words), log=log) for words in ((" 1 ", " 11 "), (" 1 ", " 0 "), ("x.prover", "x.verifier"), ("x.verifier", "log"))]
    scenarios += [run(AUDIT.replace(name, "missing"), log=log) for name in ("and.txt", "x.prover", "x.verifier", "log")]
    scenarios += [run(AUDIT + words, log=log) for words in (" --public 1", " --public 111", " --public 2", " --public", " --section 1", " more")]
    scenarios += [run("audit"), run("audit and.txt 2 x.prover x.verifier log"), run("audit and.txt 1 x.prover x.verifier")]
    extended = b"".join(accepted(line("verifier").job().claim, Extended(height=1, trees=1, base=10), LONG)).hex()
    scenarios += [run(AUDIT, log=extended, **ONE_TREE), run(AUDIT, log=log, **ONE_TREE), run(AUDIT, log=extended)]
    public = b"".join(accepted(line("verifier", **PUBLIC).job().claim, None, LONG)).hex()
    scenarios += [run(AUDIT + " --public 1", log=public), run(AUDIT, log=public), run("audit and.txt 1 --public 11 x.prover x.verifier log", log=public)]
    chain = "audit chain.txt {} x.prover x.verifier log".format(bristol.word_of(list(line("verifier", circuit="chain.txt", bits="10").job().outputs)))
    long_log = b"".join(accepted(line("verifier", circuit="chain.txt", bits="10").job().claim, None, LONG)).hex()
    scenarios.append(run(chain, circuit="chain.txt", units=128, log=long_log))
    told = [scenario.words for scenario in told_provers()]
    return scenarios + [run(AUDIT.replace(" 1 ", f" {words['outputs']} "), log=words["more"]) for words in told]


def told_provers() -> List[Scenario]:
    """Audits of sessions with provers that are told the key, and so make the verifier accept what is not so."""

    def about(bits: str, outputs: int, fixed: List[int], spoilt: int = 0) -> Scenario:
        claimed = line("audit", bits=bits, outputs=outputs)
        log = Told(claimed.job(bytes(32)), fixed, spoilt).log()
        return line("audit", bits=bits, outputs=outputs, keep=0, more=log.hex())

    # A product that is not that of its factors; an output that is not as claimed; errors with a root at the challenge.
    return [
        about("10", 1, [1, 0, 1]),
        about("10", 1, [1, 0, 1], spoilt=1),
        about("1", 0, [1, 1, 1]),
        about("1", 1, [-(CHALLENGE_COIN**2) % P, 1, 1]),
        about("1", 1, [1, 1, 1]),
    ]


def audits() -> List[Scenario]:
    """Audits of logs: whole ones, each beginning, and each byte that is another; refusals, rejections, and wrong grants."""
    scenarios = [line("audit", **words, section=section) for words in ({}, EIGHT_TREES) for section in (1, LONG)]
    scenarios += [line("audit", circuit="five_gates.txt", bits=f"{bits:04b}", section=2) for bits in range(16)]
    scenarios += [line("audit", circuit="chain.txt", bits="10", section=section) for section in (1, 1000, LONG)]
    scenarios.append(line("audit", circuit="chain.txt", bits="10", public=1, section=1000, **EIGHT_TREES))
    scenarios += [line("audit", circuit="adder64.txt", bits="10", section=3), line("audit", circuit="no_wires.txt", bits="none")]
    scenarios += [line("audit", **PUBLIC, bits=bits) for bits in ("11", "10", "01")]
    scenarios += [line("audit", public=2), line("audit", **PUBLIC, change="0..233:1"), line("audit", **PUBLIC, cut="97..140")]
    scenarios += [line("audit", cut="0..210"), line("audit", more="00"), line("audit", outputs=0)]
    scenarios += [line("audit", change=f"0..209:{mask}") for mask in (1, 128)]
    scenarios += [line("audit", circuit="five_gates.txt", bits="1101", section=2, change="102..305:1")]
    scenarios += [line("audit", **EIGHT_TREES, change=change) for change in ("100..280:1", "280..300:128", "2890..2987:1")]
    scenarios += [line("audit", **EIGHT_TREES, cut="2970..2988"), line("audit", **EIGHT_TREES, more="00")]
    for number in range(6):
        scenarios += [line("audit", keep=102, more=frame(10, bytes([number])).hex() + more) for more in ("", "00")]
    for start, count, section in ((0, 1, 1), (0, 1, 0), (0, 1, LONG + 1), (0, 2, LONG), (1, 1, LONG), (0, 0, LONG)):
        scenarios.append(line("audit", keep=102, more=frame(2, struct.pack("<QII", start, count, section)).hex()))
    rejected = [verify(AND_JOB._replace(claim=AND_JOB.claim._replace(digest=bytes(32))), Link(sent)) for sent in rejected_provers()]
    for _, end in rejected:
        log = b"".join(data for _, data in end.log)
        scenarios += [line("audit", keep=0, more=log.hex()), line("audit", keep=0, more=log.hex() + "00")]
        scenarios.append(line("audit", keep=0, more=log[:-5].hex() + "0000000000"))
    check_lengths()
    return scenarios + told_provers()


def check_lengths() -> None:
    """The ranges of audits end with the logs."""
    logs = ({}, 209), ({**PUBLIC}, 233), ({"circuit": "five_gates.txt", "bits": "1101", "section": 2}, 305), (EIGHT_TREES, 2987)
    for words, length in logs:
        assert len(audited_log(line("audit", **words).job(bytes(32)))) == length, (words, length)


def rejected_provers() -> List[bytes]:
    """Provers whose first sum, or whose opening, is another."""
    sent = hold(AND_JOB._replace(claim=AND_JOB.claim._replace(digest=bytes(32))))[0]
    return [sent[:at] + bytes([sent[at] ^ 1]) + sent[at + 1 :] for at in (136, 157)]


def all_scenarios() -> List[Scenario]:
    parts = [published(), honest_sessions(), wrong_provers(), wrong_askers(), refused_leases(), wrong_verifiers(), refused_claims()]
    parts += [failing_runs(), large_runs(), stopped_services(), limits(), journals(), services()]
    parts += [leases(), failing_services(), logged_services(), followed_services(), files_of_bits(), statuses()]
    parts += [honest_proofs(), unsuited_grants(), taken_units(), wrong_verdicts(), failing_proofs()]
    parts += [false_proofs(), stopped_proofs(), words_of_no_proof(), journals_of_claims()]
    parts += [public_sessions(), several_statements(), public_runs(), generated_runs(), public_ends(), audits()]
    parts += [many_services(), statement_files(), audit_runs()]
    parts += [[run(words, **given) for words, given in arith_runs.rows()]]
    parts += [[line(end, **given) for end, given in broker_runs.rows()]]
    parts += [areas(), heads(), full_claims(), full_ceilings(), refused_sends()]
    parts += [dealings(), nodes(), versions(), file_faults(), migrations()]
    parts += [lacking_runs(), lacking_sessions(), lacking_ends(), stops()]
    return [scenario for part in parts for scenario in part]


# ---- the files


def check_published(written: Dict[str, List[str]]) -> None:
    """Both ends have the log that is published."""
    for given, scenario in zip(SESSIONS, published()):
        log = log_of(given)
        for written_line in written[scenario.line()]:
            assert f" bytes={len(log)} sha256={sha256(log).hex()} " in written_line, scenario.line()
    for given in ARITH_SESSIONS:
        log = log_of(given)
        said = f" bytes={len(log)} sha256={sha256(log).hex()}"
        having = [each for lines in written.values() for each in lines if said in each]
        assert all(any(f" {end} accepted " in each for each in having) for end in ("served", "proved")), given.name


def poly_lines() -> Dict[str, List[str]]:
    """Sessions about constraints, with what is written of each in the file that stands there."""
    line_of = lambda row: run(row[0], **row[1]).line()
    lines = [line_of(row) for row in poly_runs.rows()]
    assert len(set(lines)) == len(lines), "a line stands twice"
    found: Dict[str, List[str]] = {line: [] for line in lines}
    of: List[str] = []
    for line in (CRATE / "stdout").read_text().splitlines():
        if line.startswith(("run ", "zk ", "served", "proved")) and (line in found or line.startswith(("run words=", "zk "))):
            of = found.get(line, [])
        else:
            of.append(line)
    poly_runs.check(found, line_of)
    return found


def main() -> int:
    scenarios = all_scenarios()
    written = {scenario.line(): lines_of(scenario) for scenario in scenarios}
    assert len(written) == len(scenarios), "a line stands twice"
    check_published(written)
    kept = poly_lines()
    stored = [(f"zk {run.words}", [*run.lines, f"status {run.status}"]) for run in stored_runs.all_runs()]
    entries = [*written.items(), *stored, *kept.items()]
    files = {
        "stdin": "".join(f"{given}\n" for given, _ in entries).encode(),
        "stdout": "".join(f"{given}\n" + "".join(f"{each}\n" for each in lines) for given, lines in entries).encode(),
        **{f"data/{name}": text for name, text in CIRCUITS.items()},
    }
    if sys.argv[1:] == ["--write"]:
        for name, data in files.items():
            (CRATE / name).write_bytes(data)
    elif sys.argv[1:]:
        sys.exit("session_runs.py [--write]")
    wrong = [name for name, data in files.items() if not (CRATE / name).exists() or (CRATE / name).read_bytes() != data]
    for name in wrong:
        print(f"crates/session_runs/{name} is not as it must be")
    print(f"{len(scenarios)} scenarios, {sum(map(len, written.values()))} sessions, {len(wrong)} files that differ")
    return 1 if wrong else 0


if __name__ == "__main__":
    sys.exit(main())
