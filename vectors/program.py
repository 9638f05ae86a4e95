"""The program over files, an output, a door and a journal's disk in memory of which some calls are refused, computed apart from it.

A run is given words, files by their names, what the disk has, the numbers of the calls of the shelf, the sink, the door and the disk
that fail or find no memory, the peers that call at the door, or the one to which it connects, and the brokers to which a node connects. What
it writes, its status and what it hands back follow `docs/CLI.md`, its journal `docs/FORMATS.md`, its sessions `ends.py`, and exchanges of
nodes and brokers `exchanges.py`. Several peers are served by one worker.
"""
import functools
import json
import struct
from typing import Dict, List, Mapping, NamedTuple, Optional, Sequence, Set, Tuple, Union

import arithmetic
import bristol
from auditor import audit
from common import CODE_SEED, FILE_ID, P, PROVER_COINS, VERIFIER_COINS, sha256
from dealt_files import MAGIC, MOST_UNITS as MOST_DEALT, Params, area, deal, header, header_of, journal, one_area, own_slots
from ends import MOST_UNITS, End, Grant, Job, Link, prove_by, verify_by
from exchanges import TRIES, Block, Broker, Exchange, Node, Out, Try, answer, ask
from generated import MOST_GENERATED, generate
from session import LONG, AnyClaim, Claim, ElementsClaim, Extended

FILE_LIMIT = 2**30


class Stopped(Exception):
    """A run stops: the line that it writes, and its status."""

    def __init__(self, line: str, status: int):
        super().__init__(line)
        self.line, self.status = line + "\n", status


class DiskFailed(Exception):
    """A call of the disk failed."""


class Disk:
    """A file whose call of this number, from 1, fails. A write that fails writes the first half of its bytes. What stood there at the last
    sync is kept, and the ranges of the writes since, of which a crash may leave anything."""

    def __init__(self, data: bytes, failing: int):
        self.data, self.synced, self.failing = bytearray(data), bytes(data), failing
        self.pending: List[Tuple[int, int]] = []
        self.calls = self.faults = 0

    def begin(self) -> None:
        self.calls += 1
        if self.calls == self.failing:
            self.faults += 1
            raise DiskFailed()

    def choose(self) -> None:
        self.begin()

    def sync(self) -> None:
        self.begin()
        self.synced, self.pending = bytes(self.data), []

    def read(self, at: int, count: int) -> bytes:
        self.begin()
        return bytes(self.data[at : at + count])

    def place(self, at: int, data: bytes) -> None:
        self.data.extend(bytes(max(0, at - len(self.data))))
        self.data[at : at + len(data)] = data

    def write(self, at: int, data: bytes) -> None:
        self.pending.append((at, len(data)))
        try:
            self.begin()
        except DiskFailed:
            self.place(at, data[: len(data) // 2])
            raise
        self.place(at, data)

    def left(self, leftover: str) -> bytes:
        """What a crash leaves that has each write since the last sync be `old`, `new`, or this byte all over."""
        image = Disk(self.synced, 0)
        for at, count in self.pending:
            if leftover == "new":
                image.place(at, bytes(self.data[at : at + count]))
            elif leftover != "old":
                image.place(at, bytes([int(leftover)]) * count)
        return bytes(image.data)


def no_memory() -> Stopped:
    return Stopped("memory", 7)


class Outside:
    """What a run is given, and what it has written. A write that fails leaves the first half of its bytes, and a store that fails no file.
    A call that finds no memory does nothing."""

    def __init__(
        self, files: Dict[str, bytes], disk: Disk, fails: Mapping[str, int] = {}, lacks: Mapping[str, int] = {}, brokers: Sequence[Link] = ()
    ):
        self.files, self.disk, self.written, self.said = files, disk, b"", ""
        self.brokers = iter(brokers)
        self.fails, self.lacks = fails, lacks
        self.calls = {"shelf": 0, "sink": 0, "door": 0}

    def is_failing(self, name: str) -> bool:
        """Whether the call that begins fails."""
        self.calls[name] += 1
        return self.calls[name] == self.fails.get(name)

    def is_lacking(self, name: str) -> bool:
        """Whether the call under way finds no memory."""
        return self.calls[name] == self.lacks.get(name)

    def load(self, name: str) -> bytes:
        if self.is_failing("shelf") or name not in self.files:
            raise Stopped("failed shelf", 4)
        if len(self.files[name]) > FILE_LIMIT:
            raise Stopped(f"refused TooLong 0 {FILE_LIMIT}", 3)
        if self.is_lacking("shelf"):
            raise no_memory()
        return self.files[name]

    def has(self, name: str, data: bytes) -> Optional[bool]:
        """Whether these bytes stand under the name, as a load of no more says; none where that failed."""
        if self.is_failing("shelf") or name not in self.files:
            return None
        return not self.is_lacking("shelf") and self.files[name] == data

    def store(self, name: str, data: bytes) -> None:
        if self.is_failing("shelf"):
            self.files.pop(name, None)
            raise Stopped("failed shelf", 4)
        if self.is_lacking("shelf"):
            raise no_memory()
        self.files[name] = data

    def ask_door(self) -> None:
        """Begins a call of the door."""
        if self.is_failing("door"):
            raise Stopped("failed door", 4)
        if self.is_lacking("door"):
            raise no_memory()

    def say(self, text: str, status: int) -> int:
        """The status after a text is written."""
        data = text.encode()
        if not self.is_failing("sink"):
            if self.is_lacking("sink"):
                return 7
            self.written += data
            return status
        self.written += data[: len(data) // 2]
        return 4 if status <= 1 else status


class Came(NamedTuple):
    """What came of a run: its status, and what it hands back."""

    status: int
    part: str


# ---- the words


def read_number(word: str, low: int, high: int) -> int:
    digits = word.lstrip("0") or "0"
    if not word.isdigit() or len(digits) > 20 or not low <= int(digits) <= high:
        raise ValueError(word)
    return int(digits)


def read_bits(word: str) -> List[int]:
    if word != "none" and (not word or set(word) - set("01")):
        raise ValueError(word)
    return [] if word == "none" else [int(bit) for bit in word]


class Named(str):
    """The name of a file that has bits."""


BitsWord = Union[Named, List[int]]


def bits_word(word: str) -> BitsWord:
    return Named(word[1:]) if word.startswith("@") else read_bits(word)


def bits_given(outside: "Outside", word: BitsWord, name: str, of: str, public: Sequence[int] = ()) -> List[int]:
    """The bits of a word, or of the file that it names. One with another byte is refused: so many bits do not fit the circuit."""
    if not isinstance(word, Named):
        return word
    text = outside.load(word)
    body = text[:-1] if text.endswith(b"\n") else text
    if body == b"none":
        return []
    if body and not set(body) - set(b"01"):
        return [byte - 48 for byte in body]
    got = next((place for place, byte in enumerate(text) if byte not in b"01"), len(text))
    circuit = load_circuit(outside, name)
    if of == "outputs":
        raise Stopped(f"refused outputs {circuit.outputs} {got}", 3)
    if of == "public":
        raise Stopped(f"refused public {circuit.inputs} {got}", 3)
    check_public(circuit, list(public))
    raise Stopped(f"refused bits {circuit.inputs - len(public)} {got}", 3)


def sorted_words(words: List[str], valued: List[str], flags: List[str]) -> Tuple[List[str], Dict[str, str]]:
    """The words in their places, and the options, each at most once. An option's value may stand behind `=`, and behind a word `--` all
    words are in places."""
    places: List[str] = []
    options: Dict[str, str] = {}
    rest = iter(words)
    for word in rest:
        name, sign, value = word.partition("=")
        if name in options:
            raise ValueError(word)
        if word in flags:
            options[word] = ""
        elif name in valued:
            options[name] = value if sign else next(rest, "-")
        elif word == "--":
            places += rest
        elif word.startswith("-"):
            raise ValueError(word)
        else:
            places.append(word)
    if any(word.startswith("-") for word in [*places, *options.values()]):
        raise ValueError(words)
    return places, options


# ---- the commands


def load_circuit(outside: Outside, name: str) -> bristol.Circuit:
    found = bristol.read(outside.load(name))
    if not isinstance(found, bristol.Circuit):
        raise Stopped(f"refused {found.name} {bristol.NUMBERS[found.name]} {found.place}", 3)
    return found


def load_arith(outside: Outside, name: str) -> arithmetic.Circuit:
    found = arithmetic.read(outside.load(name))
    if not isinstance(found, arithmetic.Circuit):
        raise Stopped(f"refused {found.name} {bristol.NUMBERS[found.name]} {found.place}", 3)
    return found


def load_elements(outside: Outside, name: str, need: int) -> List[int]:
    """So many elements, which a file says."""
    found = arithmetic.elements(outside.load(name))
    if isinstance(found, int):
        raise Stopped(f"refused BadValue 1 {found}", 3)
    if len(found) != need:
        raise Stopped(f"refused Count 2 {need} {len(found)}", 3)
    return found


def check_public(circuit: bristol.Circuit, public: List[int]) -> None:
    if len(public) > circuit.inputs:
        raise Stopped(f"refused public {circuit.inputs} {len(public)}", 3)


def need_of(circuit: bristol.Circuit, public: List[int], section: int) -> Tuple[int, int, int]:
    """How many products, sections and correlations a session has."""
    products = len(Claim(circuit, b"", public, len(public)).products())
    sections = -(-products // section)
    return products, sections, products + sections


def outputs_of(circuit: bristol.Circuit, public: List[int], bits: List[int]) -> str:
    """What a circuit gives at these public bits and private ones."""
    check_public(circuit, public)
    if len(bits) != circuit.inputs - len(public):
        raise Stopped(f"refused bits {circuit.inputs - len(public)} {len(bits)}", 3)
    return bristol.word_of(bristol.evaluate(circuit, public + bits))


def run_eval(outside: Outside, words: List[str]) -> Came:
    (name, word), _ = sorted_words(words, [], [])
    bits = bits_given(outside, bits_word(word), name, "bits")
    return Came(outside.say(outputs_of(load_circuit(outside, name), [], bits) + "\n", 0), "plain")


def read_circuit(text: bytes) -> bristol.Circuit:
    circuit = bristol.read(text)
    assert isinstance(circuit, bristol.Circuit)
    return circuit


def run_rehearse(outside: Outside, words: List[str]) -> Came:
    places, options = sorted_words(words, ["--section", "--public", "--gates", "--number"], ["--extended"])
    section = read_number(options.get("--section", str(LONG)), 1, LONG)
    if not places:
        if "--public" in options:
            raise ValueError("--public")
        gates, number = read_number(options["--gates"], 1, MOST_GENERATED), read_number(options["--number"], 0, 2**64 - 1)
        made = generate(gates, number)
        return rehearsed(outside, read_circuit(made.text), [], made.bits, section, "--extended" in options)
    name, word = places
    if "--gates" in options or "--number" in options:
        raise ValueError("--gates")
    bits_said, public_said = bits_word(word), bits_word(options.get("--public", "none"))
    public = bits_given(outside, public_said, name, "public")
    bits = bits_given(outside, bits_said, name, "bits", public)
    return rehearsed(outside, load_circuit(outside, name), public, bits, section, "--extended" in options)


def rehearsed(
    outside: Outside, circuit: bristol.Circuit, public: List[int], bits: List[int], section: int, extended: bool
) -> Came:
    outputs = outputs_of(circuit, public, bits)
    products, sections, need = need_of(circuit, public, section)
    units = max(1, -(-need // (8 * 1024 if extended else 64)))
    if units > MOST_UNITS:
        raise Stopped(f"too large {need} {units}", 9)
    lines = f"outputs {outputs}\nproducts {products} sections {sections} correlations {need} units {units}\naccepted\n"
    return Came(outside.say(lines, 0), f"rehearsed outputs={outputs} need={need} units={units}")


def run_rehearse_arith(outside: Outside, words: List[str]) -> Came:
    (name, values), options = sorted_words(words, ["--section"], ["--extended"])
    section = read_number(options.get("--section", str(LONG)), 1, LONG)
    circuit = load_arith(outside, name)
    found = arithmetic.evaluate(circuit, load_elements(outside, values, circuit.inputs))
    if isinstance(found, int):
        raise Stopped(f"unsatisfied {circuit.outputs + found}", 1)
    products, sections = circuit.products, -(-circuit.products // section)
    need = circuit.inputs + products + sections
    units = max(1, -(-need // (8 * 1024 if "--extended" in options else 64)))
    if units > MOST_UNITS:
        raise Stopped(f"too large {need} {units}", 9)
    lines = f"outputs {arithmetic.word_of(found)}\nproducts {products} sections {sections} correlations {need} units {units}\naccepted\n"
    return Came(outside.say(lines, 0), f"rehearsed elements={','.join(map(str, found))} need={need} units={units}")


def unit_size(side: int, params: Params) -> int:
    """How many bytes a unit has in a file of this side."""
    correlations, transfers = (params.base + params.trees, params.trees * params.height) if params.kind else (64, 0)
    return 8 * correlations + 32 * transfers if side else 16 * correlations + 17 * transfers


def file_length(side: int, params: Params) -> int:
    """How many bytes a file of this side has: the header, the verifier's key, the units and the digest."""
    return 128 + 8 * side + params.total * unit_size(side, params) + 32


def dealt_for(options: Dict[str, str]) -> Params:
    units = read_number(options["--units"], 1, 2**40)
    given = [name for name in ("--trees", "--height", "--base") if name in options]
    params = Params(0, 0, 0, 0, units)
    if given:
        trees = read_number(options["--trees"], 1, 1024)
        height, base = read_number(options["--height"], 1, 16), read_number(options["--base"], 10, 65536)
        params = Params(1, height, trees, base, units)
    if any(file_length(side, params) > FILE_LIMIT for side in (0, 1)):
        raise ValueError(options)
    return params


class Header(bytes):
    """The first 128 bytes of a dealt file, where no more of it is asked for. Its length is that of the whole file."""

    length = 0


def headers_of(params: Params) -> Tuple[Header, Header]:
    """The headers of the dealt files."""
    code_seed = CODE_SEED if params.kind else bytes(32)
    found = []
    for side, key in enumerate((PROVER_COINS, VERIFIER_COINS)):
        found.append(Header(header(side, params, key, code_seed)))
        found[-1].length = file_length(side, params)
    return found[0], found[1]


def dealt_by(params: Params) -> Tuple[bytes, bytes]:
    """The dealt files, or where there are very many units their headers: of these alone a run's lines speak."""
    return deal(params) if params.total <= 4096 else headers_of(params)


def run_deal(outside: Outside, words: List[str]) -> Came:
    (name,), options = sorted_words(words, ["--units", "--trees", "--height", "--base"], [])
    params = dealt_for(options)
    prover, verifier = dealt_by(params)
    outside.store(f"{name}.prover", prover)
    outside.store(f"{name}.verifier", verifier)
    outside.store(f"{name}.prover.journal", journal(0, params.total))
    outside.store(f"{name}.verifier.journal", journal(1, params.total))
    lines = f"id {FILE_ID.hex()}\nunits {params.total} {'extended' if params.kind else 'direct'}\n"
    return Came(outside.say(lines, 0), "plain")


def run_node(outside: Outside, words: List[str]) -> Came:
    (name, number), _ = sorted_words(words, [], [])
    node = read_number(number, 0, 1023)
    total = read_dealt(1, outside.load(name)).total
    outside.store(f"{name}.node.{node}", journal(0, total, 4096))
    return Came(outside.say(f"node {node}\n", 0), "plain")


def number_at(data: bytes, start: int, size: int = 8) -> int:
    return int.from_bytes(data[start : start + size], "little")


VERSIONS = {word: version for version, word in MAGIC.items()}


def are_params(data: bytes) -> bool:
    """Whether a header's numbers are those of a file of its version."""
    height, trees, base = data[10], number_at(data, 12, 4), number_at(data, 16, 4)
    if data[11] or any(data[20:24]) or not 1 <= number_at(data, 24) <= MOST_DEALT[VERSIONS[data[:8]]]:
        return False
    if data[9] == 0:
        return not (height or trees or base or any(data[96:128]))
    return 1 <= height <= 16 and 1 <= trees <= 1024 and 10 <= base <= 65536


def bad_place(side: int, params: Params, data: bytes) -> Optional[int]:
    """Where the first element begins that is not below the prime, or the first bit that is neither 0 nor 1."""
    elements = (params.base + params.trees if params.kind else 64) * (2 - side)
    places = [(128, 8)] * side
    for unit in range(params.total):
        at = 128 + 8 * side + unit * unit_size(side, params)
        places += [(at + 8 * i, 8) for i in range(elements)]
        places += [(at + 8 * elements + 17 * i, 1) for i in range(params.trees * params.height * (1 - side))]
    return next((at for at, size in places if number_at(data, at, size) >= (P if size == 8 else 2)), None)


@functools.lru_cache(maxsize=None)
def file_fault(side: int, data: bytes) -> Optional[str]:
    """The first fault of a whole file of this side."""
    if data[:8] not in VERSIONS:
        return "BadMagic 1"
    if len(data) < 128:
        return f"Length 4 128 {len(data)}"
    if data[8] != side or data[9] > 1:
        return "BadKind 2"
    if not are_params(data):
        return "BadParam 3"
    params = params_at(data)
    need = file_length(side, params)
    if len(data) != need:
        return f"Length 4 {need} {len(data)}"
    place = bad_place(side, params, data)
    if place is not None:
        return f"BadElement 5 {place}"
    if side and not any(data[128:136]):
        return "ZeroKey 6"
    return None if data[-32:] == sha256(data[:-32]) else "BadDigest 7"


def params_at(data: bytes) -> Params:
    return Params(data[9], data[10], number_at(data, 12, 4), number_at(data, 16, 4), number_at(data, 24))


def read_dealt(side: int, data: bytes) -> Params:
    """What a file of this side is dealt for, of either version. Of a header alone the side is judged."""
    if isinstance(data, Header):
        fault = None if data[8] == side else "BadKind 2"
    else:
        fault = file_fault(side, data)
    if fault:
        raise Stopped(f"refused {fault}", 3)
    return params_at(data)


def extended_of(params: Params) -> Optional[Extended]:
    return Extended(height=params.height, trees=params.trees, base=params.base) if params.kind else None


OUTCOMES = {
    "rejected-sum": "rejected sum {section}",
    "rejected-opening": "rejected opening {output}",
    "peer-ended": "ended {at}",
    "bad-frame": "frame {place}",
    "exhausted": "exhausted {at} {count} {total}",
    "broken": "journal {first}",
    "no-memory": "memory",
    "no-block": "block {wants}",
}


def outcome_words(outcome: str) -> str:
    """An outcome as the lines of `serve` have it."""
    name, *fields = outcome.split(" ")
    if name == "bad-hello":
        return f"hello {fields[0]}"
    return OUTCOMES.get(name, name).format(**dict(field.split("=") for field in fields))


def note_line(outcome: str, end: End) -> str:
    words = outcome_words(outcome)
    if end.units == "none":
        return f"no grant {words}\n"
    judged = outcome == "accepted" or outcome.startswith("rejected")
    return f"units {end.units} {'' if judged else 'broken '}{words}\n"


def status_of(outcome: str) -> int:
    """The status of a session."""
    name = outcome.split(" ")[0]
    return {"accepted": 0, "link": 4, "broker": 4, "device": 5, "broken": 5, "exhausted": 6, "no-memory": 7}.get(name, 1)


def log_words(log: List[Tuple[str, bytes]]) -> str:
    data = b"".join(data for _, data in log)
    runs = "".join(f" {side}{len(part)}" for side, part in log)
    return f"log{runs} bytes={len(data)} sha256={sha256(data).hex()}"


class Claimed(NamedTuple):
    """A circuit's file, the public bits and the outputs that are claimed."""

    circuit: str
    public: List[int]
    outputs: List[int]


class ClaimedElements(NamedTuple):
    """An arithmetic circuit's file, and that of the outputs that are claimed."""

    circuit: str
    outputs: str


AnyClaimed = Union[Claimed, ClaimedElements]


class Service(NamedTuple):
    """What the words of a service name, beside what it is about."""

    file: str
    sessions: int
    section: int
    logs: Optional[str]
    address: str
    follow: bool


SERVICE_OPTIONS = ["--sessions", "--workers", "--section", "--timeout", "--logs"]


def read_service(address: str, file: str, options: Dict[str, str]) -> Service:
    sessions = read_number(options["--sessions"], 1, 65536)
    read_number(options.get("--workers", "4"), 1, 1024)
    section = read_number(options.get("--section", str(LONG)), 1, LONG)
    read_number(options.get("--timeout", "120"), 1, 86400)
    return Service(file, sessions, section, options.get("--logs"), address, "--follow" in options)


def read_statements(text: bytes) -> List[Claimed]:
    """What a file of statements says: the first line that says none is its fault, and else how many there are."""
    lines = text.split(b"\n")
    statements = []
    for number, line in enumerate(lines[: len(lines) - (lines[-1] == b"")]):
        try:
            circuit, public, outputs = line.decode().split(" ")
            if not circuit:
                raise ValueError(line)
            statements.append(Claimed(circuit, read_bits(public), read_bits(outputs)))
        except ValueError:
            raise Stopped(f"refused BadLine 1 {number}", 3) from None
    if not 1 <= len(statements) <= 256:
        raise Stopped(f"refused Count 2 {len(statements)}", 3)
    return statements


def load_claim(outside: Outside, claimed: AnyClaimed) -> Tuple[AnyClaim, List[int]]:
    """The claim, whose circuit has inputs for the public bits, and its outputs, which are as many as the circuit's."""
    text = outside.files.get(claimed.circuit, b"")
    if isinstance(claimed, ClaimedElements):
        elements_circuit = load_arith(outside, claimed.circuit)
        found = load_elements(outside, claimed.outputs, elements_circuit.outputs)
        return ElementsClaim(elements_circuit, sha256(text), []), found
    public, outputs = claimed.public, claimed.outputs
    circuit = load_circuit(outside, claimed.circuit)
    check_public(circuit, public)
    if len(outputs) != circuit.outputs:
        raise Stopped(f"refused outputs {circuit.outputs} {len(outputs)}", 3)
    return Claim(circuit, sha256(text), public, len(public)), outputs


def served_jobs(outside: Outside, service: Service, statements: Sequence[AnyClaimed]) -> List[Job]:
    """What the sessions of a service are about."""
    section = service.section
    claims = [load_claim(outside, claimed) for claimed in statements]
    params = read_dealt(1, outside.load(service.file))
    jobs = []
    for claim, outputs in claims:
        jobs.append(Job(claim, tuple(outputs), extended_of(params), params.total, section))
        if jobs[-1].units(section) > MOST_UNITS:
            raise Stopped(f"too large {jobs[-1].need(section)} {jobs[-1].units(section)}", 9)
    return jobs


def slots_of(header: bytes) -> int:
    return int.from_bytes(header[24:32], "little")


def first_wrong(header: bytes, wanted: bytes, fits: bool) -> Optional[int]:
    """The first byte of a header that is wrong: 24 where no journal has so many slots."""
    wrong = [place for place in range(64) if not 24 <= place < 32 and header[place] != wanted[place]]
    return min(wrong + ([] if fits else [24]), default=None)


def check_header(header: bytes, wanted: bytes, kind: int, most: int) -> None:
    """The header is this one, but for the number of slots: any for claims, and the most for ceilings."""
    fits = 1 <= slots_of(header) <= 2**28 and (kind == 0 or slots_of(header) == most)
    place = first_wrong(header, wanted, fits)
    if place is not None:
        raise Stopped(f"refused BadHeader 2 {place}", 3)


Body = Tuple[int, int]


class Area(NamedTuple):
    """Where an area stands, its generation, and whether its head is open."""

    at: int
    generation: int
    is_open: bool


class Journal:
    """An open journal of two areas: where it begins, how many slots an area has, the active area, the other one, and what is said."""

    def __init__(self, disk: Disk, kind: int, total: int):
        self.disk, self.kind = disk, kind
        disk.choose()
        disk.sync()
        self.begin = self.find_begin(total)
        header = disk.read(self.begin, 64)
        if len(header) < 64:
            raise Stopped(f"refused Short 1 64 {len(header)}", 3)
        check_header(header, header_of(kind, total, 0), kind, own_slots(kind, total))
        self.slots = slots_of(header)
        self.check_length()
        areas = [self.read_head(self.begin + 64), self.read_head(self.begin + 96 + 32 * self.slots)]
        if not any(each.is_open for each in areas):
            raise Stopped("refused BadHeader 2 95", 3)
        # The open head with the greater generation counts, and of equal ones the first.
        self.active, self.other = sorted(areas, key=lambda each: (not each.is_open, -each.generation))
        self.bodies = self.read_bodies(total)
        self.check_generation()

    def find_begin(self, total: int) -> int:
        """Where the journal begins: behind one of one area, where this was migrated."""
        first = self.disk.read(0, 64)
        if len(first) < 64 or first[8] != self.kind or first[15] != 0x5A:
            return 0
        most = -(-total // 16)
        check_header(first, one_area(self.kind, total, 0, 0x5A), self.kind, most)
        return 64 + 32 * slots_of(first)

    def check_length(self) -> None:
        """The last byte is read, and where it is missing, bytes before it: each halves the places at which the file may end."""
        need = 128 + 64 * self.slots
        low, high = self.begin + 64, self.begin + need - 1
        if self.disk.read(high, 1):
            return
        while low < high:
            middle = (low + high) // 2
            low, high = (middle + 1, high) if self.disk.read(middle, 1) else (low, middle)
        raise Stopped(f"refused Short 1 {need} {low - self.begin}", 3)

    def read_head(self, at: int) -> Area:
        head = self.disk.read(at, 32)
        return Area(at, int.from_bytes(head[:8], "little"), head[31] == 0x5A)

    def read_bodies(self, total: int) -> List[Body]:
        """What the slots say up to the first that is not open."""
        keeps = is_ceiling if self.kind == 1 else is_span
        bodies: List[Body] = []
        for slot in range(self.slots):
            data = self.disk.read(self.active.at + 32 * (slot + 1), 32)
            if data[31] != 0x5A:
                break
            bodies.append(struct.unpack("<QQ", data[:16]))
        for slot, body in enumerate(bodies):
            if not keeps(total, bodies[:slot], body):
                raise Stopped(f"refused BadBody 3 {slot}", 3)
        return bodies

    def check_generation(self) -> None:
        """A generation is at least 1, and at most 1 more than the units that the journal says are spent."""
        if self.kind == 1:
            units = self.bodies[-1][0] if self.bodies else 0
        else:
            self.read_again()
            units = sum(end - start for start, end in self.bodies)
        if not 1 <= self.active.generation <= units + 1:
            raise Stopped(f"refused BadHeader 2 {self.active.at - self.begin}", 3)

    def read_again(self) -> None:
        """Each body is read once more."""
        for slot in range(len(self.bodies)):
            self.disk.read(self.active.at + 32 * (slot + 1), 16)

    def set_gate(self, at: int, gate: bytes) -> None:
        self.disk.write(at + 31, gate)
        self.disk.sync()

    def put(self, body: Body) -> None:
        """Writes the next slot of the active area, and opens it."""
        at = self.active.at + 32 * (len(self.bodies) + 1)
        self.disk.write(at, struct.pack("<QQ", *body))
        self.disk.sync()
        self.set_gate(at, b"\x5a")
        self.bodies.append(body)

    def compact(self, bodies: List[Body]) -> None:
        """Writes these bodies into the other area, while its head is closed, and opens it with the next generation."""
        if self.other.is_open:
            self.set_gate(self.other.at, b"\0")
        generation = self.active.generation + 1
        self.disk.write(self.other.at, struct.pack("<Q", generation))
        for slot in range(self.slots):
            data = struct.pack("<QQ", *bodies[slot]) + bytes(15) + b"\x5a" if slot < len(bodies) else bytes(32)
            self.disk.write(self.other.at + 32 * (slot + 1), data)
        self.disk.sync()
        self.set_gate(self.other.at, b"\x5a")
        self.active, self.other = Area(self.other.at, generation, True), self.active
        self.bodies = bodies

    def is_full(self) -> bool:
        return len(self.bodies) == self.slots


class Leases:
    """The units of a journal that is open, for one worker."""

    def __init__(self, journal: Journal, total: int):
        self.journal, self.total = journal, total
        self.next = self.ceiling = journal.bodies[-1][0] if journal.bodies else 0
        self.mark = 0
        self.exhausted: Optional[str] = None

    def put(self, ceiling: int) -> None:
        """The journal says this ceiling, and where all its slots are open it says this alone."""
        if self.journal.is_full():
            self.journal.compact([(ceiling, 0)])
        else:
            self.journal.put((ceiling, 0))
        self.ceiling = ceiling

    def cover(self, end: int) -> Optional[str]:
        """Raises the ceiling up to this end, or the outcome by which it is not."""
        if end <= self.ceiling:
            return None
        if self.mark:
            return f"broken first={self.mark}"
        try:
            self.put(min(self.total, -(-end // 16) * 16))
            return None
        except DiskFailed:
            self.mark = self.journal.disk.faults
            return "device"

    def grant(self, count: int) -> Tuple[int, Optional[str]]:
        """The first of the units that are drawn, or the outcome by which they are refused."""
        if self.exhausted:
            return 0, self.exhausted
        at, self.next = self.next, self.next + count
        if self.next > self.total:
            self.exhausted = f"exhausted at={at} count={count} total={self.total}"
            return at, self.exhausted
        return at, self.cover(self.next)


def is_ceiling(total: int, bodies: List[Body], body: Body) -> bool:
    """Whether a body may follow these in the verifier's journal."""
    (ceiling, other), last = body, bodies[-1][0] if bodies else 0
    return other == 0 and last < ceiling <= total and (ceiling % 16 == 0 or ceiling == total)


def is_span(total: int, bodies: List[Body], body: Body) -> bool:
    """Whether a body may stand in the prover's journal."""
    return body[0] < body[1] <= total


def open_leases(disk: Disk, total: int) -> Leases:
    try:
        return Leases(Journal(disk, 1, total), total)
    except DiskFailed:
        raise Stopped(f"journal failed {disk.faults}", 5) from None


def first_met(spans: List[Body], start: int, end: int) -> Optional[Body]:
    """The first of these spans that has one of these units."""
    return next((span for span in spans if span[0] < end and start < span[1]), None)


def merged(spans: List[Body]) -> List[Body]:
    """The ranges that have the units of these spans, which are apart: no two of them touch, and they rise."""
    ranges: List[Body] = []
    for start, end in sorted(spans):
        if ranges and ranges[-1][1] == start:
            start = ranges.pop()[0]
        ranges.append((start, end))
    return ranges


class Claims:
    """The claims of a journal that is open, as merged ranges."""

    def __init__(self, journal: Journal, total: int):
        self.journal, self.total, self.ranges = journal, total, merged(journal.bodies)
        self.mark = 0

    def claim(self, start: int, count: int) -> Optional[str]:
        """Claims these units, or gives the outcome by which they are refused."""
        if self.mark:
            return f"broken first={self.mark}"
        end = start + count
        if end > self.total:
            return f"out-of-range total={self.total}"
        earlier = first_met(self.ranges, start, end)
        if earlier:
            return "overlap earlier={}..{}".format(*earlier)
        ranges = merged(self.ranges + [(start, end)])
        if self.journal.is_full() and len(ranges) > self.journal.slots:
            return f"full slots={self.journal.slots}"
        try:
            if self.journal.is_full():
                self.journal.compact(ranges)
            else:
                self.journal.put((start, end))
        except DiskFailed:
            self.mark = self.journal.disk.faults
            return "device"
        self.ranges = ranges
        return None


def open_claims(disk: Disk, total: int) -> Claims:
    """The claims of a journal: once all keep the rule each is read again, and compared with those before."""
    try:
        journal = Journal(disk, 0, total)
        for slot, (start, end) in enumerate(journal.bodies):
            disk.read(journal.active.at + 32 * (slot + 1), 16)
            if first_met(journal.bodies[:slot], start, end):
                raise Stopped(f"refused BadBody 3 {slot}", 3)
        return Claims(journal, total)
    except DiskFailed:
        raise Stopped(f"journal failed {disk.faults}", 5) from None


Note = Tuple[str, End]


def start_of(note: Note) -> int:
    """The first unit of a session, and a number above all where it was granted none."""
    units = note[1].units
    return 2**64 if units == "none" else int(units.split("..")[0])


def lead_sessions(
    outside: Outside, jobs: List[Job], grant: Grant, service: Service, peers: List[Link]
) -> Tuple[List[Note], int, Set[int]]:
    """The sessions with the peers that call, by their units, the status of the door, and those of the stores of logs. Each log is stored, and
    its line said, when its session has ended."""
    notes: List[Note] = []
    stores: Set[int] = set()
    rest = iter(peers)
    try:
        while len(notes) < service.sessions:
            outside.ask_door()
            peer = next(rest, None)
            if peer is None:
                break
            notes.append(verify_by(jobs, peer, grant))
            if is_logged(service, notes[-1]):
                store_log(outside, service, notes[-1], stores)
            if service.follow:
                outside.said += note_line(*notes[-1])
    except Stopped as stopped:
        return sorted(notes, key=start_of), stopped.status, stores
    return sorted(notes, key=start_of), 0, stores


def is_logged(service: Service, note: Note) -> bool:
    return service.logs is not None and note[1].units != "none"


def log_bytes(note: Note) -> bytes:
    return b"".join(data for _, data in note[1].log)


def store_log(outside: Outside, service: Service, note: Note, stores: Set[int]) -> None:
    """Stores the log of a session, and notes the status of a store that is refused."""
    try:
        outside.store(f"{service.logs}.{start_of(note)}", log_bytes(note))
    except Stopped as stopped:
        stores.add(stopped.status)


def settle_logs(outside: Outside, service: Service, notes: List[Note], stores: Set[int]) -> None:
    """Reads each log, and stores it again where other bytes stand there, or the load is refused."""
    for note in notes:
        if is_logged(service, note):
            found = outside.has(f"{service.logs}.{start_of(note)}", log_bytes(note))
            if found is None:
                stores.add(4)
            if not found:
                store_log(outside, service, note, stores)


def served_text(notes: List[Note], door_failed: bool) -> str:
    """The lines of sessions that were granted units, in order; those of the others in order of their bytes; and the door's."""
    lines = [note_line(outcome, end) for outcome, end in notes]
    granted = [each for each in lines if each.startswith("units")]
    refused = sorted((each for each in lines if not each.startswith("units")), key=str.encode)
    return "".join(granted + refused) + ("door failed\n" if door_failed else "")


def run_serve(outside: Outside, words: List[str], peers: List[Link]) -> Came:
    (address, file, circuit, outputs), options = sorted_words(words, [*SERVICE_OPTIONS, "--public"], ["--follow"])
    public_said, outputs_said = bits_word(options.get("--public", "none")), bits_word(outputs)
    service = read_service(address, file, options)
    public = bits_given(outside, public_said, circuit, "public")
    claimed = Claimed(circuit, public, bits_given(outside, outputs_said, circuit, "outputs"))
    return serve(outside, service, [claimed], peers)


def run_serve_many(outside: Outside, words: List[str], peers: List[Link]) -> Came:
    (address, file, statements), options = sorted_words(words, SERVICE_OPTIONS, ["--follow"])
    service = read_service(address, file, options)
    return serve(outside, service, read_statements(outside.load(statements)), peers)


def run_serve_arith(outside: Outside, words: List[str], peers: List[Link]) -> Came:
    (address, file, circuit, outputs), options = sorted_words(words, SERVICE_OPTIONS, ["--follow"])
    return serve(outside, read_service(address, file, options), [ClaimedElements(circuit, outputs)], peers)


def serve(outside: Outside, service: Service, statements: Sequence[AnyClaimed], peers: List[Link]) -> Came:
    jobs = served_jobs(outside, service, statements)
    leases = open_leases(outside.disk, jobs[0].total)
    begin_service(outside, jobs, service, leases.ceiling)
    notes, door_status, stores = lead_sessions(outside, jobs, leases.grant, service, peers)
    settle_logs(outside, service, notes, stores)
    status = first_status([status_of(outcome) for outcome, _ in notes] + [door_status, *stores])
    part = "".join(f" {note_words(note)}" for note in notes)
    return Came(outside.say(served_text(notes, door_status == 4), status), f"served{part}")


def begin_service(outside: Outside, jobs: List[Job], service: Service, used: int) -> None:
    """Listens, and says so to who follows it, where so many units are used."""
    outside.ask_door()
    if service.follow:
        left, most = jobs[0].total - used, max(job.units(service.section) for job in jobs)
        outside.said += f"listening {service.address}\nleft {left} sessions {left // most}\n"


def first_status(statuses: List[int]) -> int:
    """The status of a run whose parts have these."""
    return next(each for each in (7, 5, 6, 4, 1, 0) if each in statuses)


def note_words(note: Note) -> str:
    outcome, end = note
    return f"{outcome} units={end.units} {log_words(end.log)}"


# ---- a node and its broker


class Lender:
    """Grants units of a node's block, and asks the brokers to which it connects for others."""

    def __init__(self, outside: Outside, node: Node):
        self.outside, self.node = outside, node
        self.tries: List[Try] = []

    def connect(self) -> Union[Link, str]:
        """The next broker, or the outcome by which there is none."""
        try:
            self.outside.ask_door()
        except Stopped as stopped:
            return "broker" if stopped.status == 4 else "no-memory"
        return next(self.outside.brokers, None) or "broker"

    def ask(self, count: int) -> Optional[str]:
        """Makes a try, and takes the block that came, if one did; or gives the outcome that ends the grant."""
        link = self.connect()
        if isinstance(link, str):
            return link
        self.tries.append(ask(link, self.node.want(count)))
        outcome, reply, _ = self.tries[-1]
        if outcome in ("link", "no-memory"):
            return {"link": "broker"}.get(outcome, outcome)
        refusal = self.node.take(reply) if isinstance(reply, Block) else None
        return refusal if refusal and refusal.split(" ")[0] in ("device", "broken") else None

    def grant(self, count: int) -> Tuple[int, Optional[str]]:
        """The first of the units that are drawn, or the outcome by which they are refused."""
        self.tries = []
        refusal: Optional[str] = None
        while (start := self.node.draw(count)) is None and refusal is None:
            refusal = self.ask(count) if len(self.tries) < TRIES else f"no-block wants={TRIES}"
        return start or 0, refusal


class NodeNote(NamedTuple):
    """A session of a node, with the tries that its grant made."""

    note: Note
    tries: List[Try]

    def words(self) -> str:
        return note_words(self.note) + "".join(f" try {each.words()}" for each in self.tries)


def lead_by_node(outside: Outside, jobs: List[Job], lender: Lender, service: Service, peers: List[Link]) -> Tuple[List[NodeNote], int]:
    """The sessions of a node with the peers that call, one after another, and the status of the door."""
    notes: List[NodeNote] = []
    rest = iter(peers)
    try:
        while len(notes) < service.sessions:
            outside.ask_door()
            peer = next(rest, None)
            if peer is None:
                break
            lender.tries = []
            note = verify_by(jobs, peer, lender.grant)
            notes.append(NodeNote(note, lender.tries))
            if service.follow:
                outside.said += note_line(*note)
    except Stopped as stopped:
        return notes, stopped.status
    return notes, 0


def run_serve_node(outside: Outside, words: List[str], peers: List[Link]) -> Came:
    (address, _, file, circuit, outputs), options = sorted_words(words, ["--node", "--sessions", "--timeout"], ["--follow"])
    outputs_said, number = bits_word(outputs), read_number(options["--node"], 0, 1023)
    del options["--node"]
    service = read_service(address, file, options)
    claimed = Claimed(circuit, [], bits_given(outside, outputs_said, circuit, "outputs"))
    jobs = served_jobs(outside, service, [claimed])
    claims = open_claims(outside.disk, jobs[0].total)
    begin_service(outside, jobs, service, used_by(claims))
    notes, door_status = lead_by_node(outside, jobs, Lender(outside, Node(number, claims.claim)), service, peers)
    notes.sort(key=lambda each: start_of(each.note))
    status = first_status([status_of(each.note[0]) for each in notes] + [door_status])
    part = "".join(f" {each.words()}" for each in notes)
    return Came(outside.say(served_text([each.note for each in notes], door_status == 4), status), f"served{part}")


def exchange_line(exchange: Exchange) -> str:
    """The line of an exchange, as `broker` prints it."""
    outcome, want, reply, _ = exchange
    if want is None or reply is None:
        return f"no want {outcome_words(outcome)}\n"
    answered = f"out {reply.at}" if isinstance(reply, Out) else "block {}..{}".format(*reply.span())
    return f"want {want.node} {want.number} {answered}\n"


def exchange_status(exchange: Exchange) -> int:
    """The status of an exchange."""
    if exchange.outcome != "answered":
        return status_of(exchange.outcome)
    return 6 if isinstance(exchange.reply, Out) else 0


def answer_all(outside: Outside, broker: Broker, asks: int, follow: bool, peers: List[Link]) -> Tuple[List[Exchange], int]:
    """The exchanges with the nodes that call, and the status of the door."""
    exchanges: List[Exchange] = []
    rest = iter(peers)
    try:
        while len(exchanges) < asks:
            outside.ask_door()
            peer = next(rest, None)
            if peer is None:
                break
            exchanges.append(answer(broker, peer))
            if follow:
                outside.said += exchange_line(exchanges[-1])
    except Stopped as stopped:
        return exchanges, stopped.status
    return exchanges, 0


def run_broker(outside: Outside, words: List[str], peers: List[Link]) -> Came:
    (address, file), options = sorted_words(words, ["--asks", "--timeout"], ["--follow"])
    asks, follow = read_number(options["--asks"], 1, 65536), "--follow" in options
    read_number(options.get("--timeout", "120"), 1, 86400)
    total = read_dealt(1, outside.load(file)).total
    leases = open_leases(outside.disk, total)
    outside.ask_door()
    if follow:
        outside.said += f"listening {address}\nleft {total - leases.ceiling}\n"
    exchanges, door_status = answer_all(outside, Broker(leases.grant), asks, follow, peers)
    status = first_status([exchange_status(each) for each in exchanges] + [door_status])
    part = "".join(f" {each.words()} {log_words(each.end.log)}" for each in exchanges)
    text = "".join(map(exchange_line, exchanges)) + ("door failed\n" if door_status == 4 else "")
    return Came(outside.say(text, status), f"brokered{part}")


# How sessions of a prover are said: their lines, and their statuses.
PROVED = {
    "accepted": ("units {units} accepted", 0),
    "peer-ended": ("peer ended {at}", 8),
    "bad-frame": ("peer frame {place}", 8),
    "bad-grant": ("peer grant", 8),
    "peer-refused": ("peer refused {code}", 8),
    "overlap": ("peer overlap {earlier}", 8),
    "out-of-range": ("peer range {total}", 8),
    "full": ("journal full {slots}", 5),
    "device": ("journal failed {faults}", 5),
    "link": ("failed link", 4),
    "no-memory": ("memory", 7),
}


def proved_line(outcome: str, units: str, faults: int) -> Tuple[str, int]:
    """The line of a session of a prover, and its status."""
    name, *words = outcome.split(" ")
    fields = dict(word.split("=") for word in words)
    if name == "rejected":
        equation = {"1": "sum", "2": "opening"}[fields["code"]]
        return f"units {units} rejected {equation} {fields['number']}\n", 1
    line, status = PROVED[name]
    return line.format(units=units, faults=faults, **fields) + "\n", status


class Proof(NamedTuple):
    """What the words of a proof name, and its files of bits give."""

    file: str
    circuit: str
    public: List[int]
    bits: List[int]
    outputs: List[int]


def read_proof(outside: Outside, words: List[str]) -> Proof:
    (_, file, circuit, bits, outputs), options = sorted_words(words, ["--public", "--timeout"], [])
    said = bits_word(options.get("--public", "none")), bits_word(bits), bits_word(outputs)
    read_number(options.get("--timeout", "120"), 1, 86400)
    public = bits_given(outside, said[0], circuit, "public")
    private = bits_given(outside, said[1], circuit, "bits", public)
    return Proof(file, circuit, public, private, bits_given(outside, said[2], circuit, "outputs"))


def proved_job(outside: Outside, proof: Proof) -> Job:
    """What the session of a prover is about; the length of sections is that of its grant."""
    file, name, public, bits, outputs = proof
    text = outside.files.get(name, b"")
    circuit = load_circuit(outside, name)
    given = read_bits(outputs_of(circuit, public, bits))
    if len(outputs) != circuit.outputs:
        raise Stopped(f"refused outputs {circuit.outputs} {len(outputs)}", 3)
    differing = [output for output in range(circuit.outputs) if given[output] != outputs[output]]
    if differing:
        raise Stopped(f"unsatisfied {differing[0]}", 1)
    params = read_dealt(0, outside.load(file))
    claim = Claim(circuit, sha256(text), public + bits, len(public))
    return Job(claim, tuple(outputs), extended_of(params), params.total, LONG)


def run_prove(outside: Outside, words: List[str], peers: List[Link]) -> Came:
    return prove(outside, proved_job(outside, read_proof(outside, words)), peers)


def run_prove_arith(outside: Outside, words: List[str], peers: List[Link]) -> Came:
    (_, file, name, values, outputs), options = sorted_words(words, ["--timeout"], [])
    read_number(options.get("--timeout", "120"), 1, 86400)
    text = outside.files.get(name, b"")
    circuit = load_arith(outside, name)
    inputs = load_elements(outside, values, circuit.inputs)
    claimed = load_elements(outside, outputs, circuit.outputs)
    given = arithmetic.evaluate(circuit, inputs)
    if isinstance(given, int):
        raise Stopped(f"unsatisfied {circuit.outputs + given}", 1)
    differing = [output for output in range(circuit.outputs) if given[output] != claimed[output]]
    if differing:
        raise Stopped(f"unsatisfied {differing[0]}", 1)
    params = read_dealt(0, outside.load(file))
    claim = ElementsClaim(circuit, sha256(text), inputs)
    return prove(outside, Job(claim, tuple(claimed), extended_of(params), params.total, LONG), peers)


def prove(outside: Outside, job: Job, peers: List[Link]) -> Came:
    """The session of this prover with the first of the peers."""
    claims = open_claims(outside.disk, job.total)
    outside.ask_door()
    if not peers:
        raise Stopped("failed door", 4)
    outcome, end = prove_by(job, peers[0], claims.claim)
    line, status = proved_line(outcome, end.units, outside.disk.faults)
    return Came(outside.say(line, status), f"proved {outcome} units={end.units} {log_words(end.log)}")


# ---- migrations


def read_first_bodies(disk: Disk, kind: int, total: int, slots: int) -> List[Body]:
    """What the slots of a journal of one area say up to the first that is not open. Claims are then read once more."""
    keeps = is_ceiling if kind == 1 else is_span
    bodies: List[Body] = []
    for slot in range(slots):
        data = disk.read(64 + 32 * slot, 32)
        if len(data) < 32:
            raise Stopped(f"refused Short 1 {64 + 32 * slots} {64 + 32 * slot + len(data)}", 3)
        if data[31] != 0x5A:
            break
        bodies.append(struct.unpack("<QQ", data[:16]))
    wrong = [slot for slot, body in enumerate(bodies) if not keeps(total, bodies[:slot], body)]
    if wrong:
        raise Stopped(f"refused BadBody 3 {wrong[0]}", 3)
    for slot, (start, end) in enumerate(bodies if kind == 0 else []):
        disk.read(64 + 32 * slot, 16)
        if first_met(bodies[:slot], start, end):
            raise Stopped(f"refused BadBody 3 {slot}", 3)
    return bodies


def lay(disk: Disk, begin: int, kind: int, total: int, slots: int, bodies: List[Body]) -> None:
    """Writes a journal of two areas that begins there: its header, the head of its first area, and what is left in slots of 32 bytes."""
    disk.write(begin, header_of(kind, total, slots))
    rest = area(1, bodies, slots) + area(0, [], slots)
    for at in range(0, len(rest), 32):
        disk.write(begin + 64 + at, rest[at : at + 32])
    disk.sync()


def migrate(disk: Disk, kind: int, total: int) -> Optional[int]:
    """How many slots are in use of the journal of two areas that now stands behind that of one, or none where it was there before."""
    disk.choose()
    disk.sync()
    found = disk.read(0, 64)
    if len(found) < 64:
        raise Stopped(f"refused Short 1 64 {len(found)}", 3)
    check_header(found[:15] + b"\0" + found[16:], one_area(kind, total, 0), kind, -(-total // 16))
    if found[15] == 0x5A:
        return None
    slots = slots_of(found)
    bodies = read_first_bodies(disk, kind, total, slots)
    left = merged(bodies) if kind == 0 else bodies[-1:]
    lay(disk, 64 + 32 * slots, kind, total, slots if kind == 0 else own_slots(kind, total), left)
    disk.write(15, b"\x5a")
    disk.sync()
    return len(left)


def run_migrate(outside: Outside, words: List[str]) -> Came:
    (side, name), _ = sorted_words(words, [], [])
    kind = ["prover", "verifier"].index(side)
    total = read_dealt(kind, outside.load(name)).total
    try:
        used = migrate(outside.disk, kind, total)
    except DiskFailed:
        raise Stopped(f"journal failed {outside.disk.faults}", 5) from None
    return Came(outside.say("already migrated\n" if used is None else f"migrated {used}\n", 0), "plain")


# ---- what is left


def used_by(claims: Claims) -> int:
    return sum(end - start for start, end in claims.ranges)


def run_status(outside: Outside, words: List[str]) -> Came:
    places, options = sorted_words(words, ["--node"], [])
    name, *circuits = places
    if len(circuits) > 1:
        raise ValueError(words)
    by_node = "--node" in options
    if by_node:
        read_number(options["--node"], 0, 1023)
    data = outside.load(name)
    side = 1 if by_node or data[8:9] == b"\1" else 0
    params = read_dealt(side, data)
    units = units_of_circuit(params, load_circuit(outside, circuits[0])) if circuits else 0
    leases = side and not by_node
    used = open_leases(outside.disk, params.total).ceiling if leases else used_by(open_claims(outside.disk, params.total))
    left = params.total - used
    kind = f"extended {params.trees} {params.height} {params.base}" if params.kind else "direct"
    lines = f"id {data[32:64].hex()}\nunits {params.total} {kind}\nused {used} left {left}\n"
    if circuits:
        sessions = left // units if units <= MOST_UNITS else 0
        lines += f"sessions {'' if leases else 'at most '}{sessions}\n"
    return Came(outside.say(lines, 0), "plain")


def units_of_circuit(params: Params, circuit: bristol.Circuit) -> int:
    """The units of a session about a circuit without public bits, in sections of the greatest length."""
    _, _, need = need_of(circuit, [], LONG)
    return max(1, -(-need // (params.trees << params.height if params.kind else 64)))


# How an audit says what it finds: its line, and its status.
FOUND = {
    "inputs": ("inputs {0}", 0),
    "challenge-root": ("challenge root section {0} poly {rest}", 1),
    "key-root": ("key root poly {all}", 1),
    "not-accepted": ("not accepted", 1),
    "fault": ("refused LogFault 1 {0}", 3),
}


def run_audit(outside: Outside, words: List[str]) -> Came:
    (circuit, outputs, prover, verifier, log), options = sorted_words(words, ["--public"], [])
    said = bits_word(options.get("--public", "none")), bits_word(outputs)
    public = bits_given(outside, said[0], circuit, "public")
    claimed = Claimed(circuit, public, bits_given(outside, said[1], circuit, "outputs"))
    return audit_files(outside, claimed, prover, verifier, log)


def run_audit_arith(outside: Outside, words: List[str]) -> Came:
    (circuit, outputs, prover, verifier, log), _ = sorted_words(words, [], [])
    return audit_files(outside, ClaimedElements(circuit, outputs), prover, verifier, log)


def audit_files(outside: Outside, claimed: AnyClaimed, prover: str, verifier: str, log: str) -> Came:
    """What is found in the log of a session about this claim, over these files."""
    claim, outputs = load_claim(outside, claimed)
    read_dealt(0, outside.load(prover))
    params = read_dealt(1, outside.load(verifier))
    job = Job(claim, tuple(outputs), extended_of(params), params.total, LONG)
    name, *fields = audit(job, outside.load(log)).split(":")
    line, status = FOUND[name]
    text = line.format(*fields, rest=" ".join(fields[1:]), all=" ".join(fields))
    return Came(outside.say(text + "\n", status), "plain")


def run(outside: Outside, words: List[str], peers: List[Link]) -> Came:
    """What comes of these words, with these peers at the door, or the first of them to connect to."""
    commands = {"eval": run_eval, "rehearse": run_rehearse, "deal": run_deal, "audit": run_audit, "migrate": run_migrate, "status": run_status}
    commands |= {"rehearse-arith": run_rehearse_arith, "audit-arith": run_audit_arith, "node": run_node}
    parties = {"serve": run_serve, "serve-many": run_serve_many, "prove": run_prove}
    parties |= {"serve-arith": run_serve_arith, "prove-arith": run_prove_arith, "broker": run_broker, "serve-node": run_serve_node}
    try:
        if words[0] in parties:
            return parties[words[0]](outside, words[1:], peers)
        if words[0] not in commands:
            raise ValueError(words[0])
        return commands[words[0]](outside, words[1:])
    except (ValueError, KeyError):
        return Came(outside.say(bristol.USAGE + "\n", 2), "plain")
    except Stopped as stopped:
        return Came(outside.say(stopped.line, stopped.status), "plain")


def quoted(text: bytes) -> str:
    return json.dumps(text.decode())
