"""Files that are damaged, and what the commands that read them must say.

Circuits' texts, dealt files of both sides and kinds, logs, journals and statements are drawn from a fixed seed, with bytes
changed, put in, left out or cut off, half of the dealt files with a digest that fits. `eval`, `rehearse`, `audit`, and `prove` and
`serve` that have no door, read them. What is due is computed apart, by `reader_trial.py`, `program.py` and the rules for dealt
files that stand here; where a changed dealt file is one still, only the status is: one that the command has.
"""
import functools
import os
import pathlib
import random
import struct
import subprocess
from collections import Counter
from multiprocessing import Pool
from typing import Callable, Dict, Iterator, List, NamedTuple, Optional, Tuple

import program
import reader_trial
from common import P, sha256
from dealt_files import MAGIC, MOST_UNITS, Params, deal, journal, sealed
from endings import AND, with_slots
from ends import Link, hold, verify
from parties import TINY, Subject
from processes import Ran
from published import AND_GATE, FIVE_GATES

SEED = "damaged"
SECONDS = 60
TOTAL = 40
SHOWN = 5

FIVE = Subject("five gates", FIVE_GATES, "1101", section=3)
WIDE = AND._replace(kind=TINY)

# The files of the prover and of the verifier, and the name of the circuit, for each subject.
SUBJECTS = {"log.and": (AND, "x", "and"), "log.five": (FIVE, "x", "five"), "log.wide": (WIDE, "w", "and")}


def log_of(subject: Subject) -> bytes:
    job = subject.job(TOTAL)
    end = verify(job, Link(hold(job)[0]))[1]
    return b"".join(data for _, data in end.log)


@functools.lru_cache(maxsize=None)
def whole() -> Dict[str, bytes]:
    """The files that are damaged, and those beside them."""
    files = {"and": AND_GATE, "five": FIVE_GATES, "statements": b"and none 1\nfive 1 001\nand 11 1\n"}
    for name, kind in (("x", AND.kind), ("w", TINY)):
        files[f"{name}.prover"], files[f"{name}.verifier"] = deal(kind._replace(total=TOTAL))
    for name, (subject, _, _) in SUBJECTS.items():
        files[name] = log_of(subject)
    new = journal(0, TOTAL), journal(1, TOTAL)
    files["x.prover.journal"] = with_slots(new[0], [(3, 5), (0, 1), (20, 21)])
    files["x.verifier.journal"] = with_slots(new[1], [(16, 0), (32, 0)])
    return files


class Case(NamedTuple):
    """A run: its words, the files that are damaged, and the line and the status that are due, or the statuses that may come."""

    words: List[str]
    files: Dict[str, bytes]
    due: Optional[Ran]
    statuses: Tuple[int, ...] = ()


# ---- what is due


def modelled(words: List[str], files: Dict[str, bytes], disk: bytes = b"") -> Ran:
    """What these words say of these files, beside the whole ones, with a door that fails."""
    outside = program.Outside({**whole(), **files}, program.Disk(disk, 0), {"door": 1})
    came = program.run(outside, words, [])
    return Ran(outside.written.decode(), came.status)


def number(data: bytes, start: int, size: int) -> int:
    return int.from_bytes(data[start : start + size], "little")


def params_of(data: bytes) -> Params:
    return Params(data[9], data[10], number(data, 12, 4), number(data, 16, 4), number(data, 24, 8))


def are_params(data: bytes) -> bool:
    """Whether a header's numbers are those of a file."""
    kind, height, trees, base, total = params_of(data)
    most = MOST_UNITS[1 if data[:8] == MAGIC[1] else 2]
    if data[11] or any(data[20:24]) or not 1 <= total <= most:
        return False
    if kind == 0:
        return not (height or trees or base or any(data[96:128]))
    return 1 <= height <= 16 and 1 <= trees <= 1024 and 10 <= base <= 65536


def counts_of(params: Params) -> Tuple[int, int]:
    """How many correlations and transfers a unit has."""
    if params.kind == 0:
        return 64, 0
    return params.base + params.trees, params.trees * params.height


def unit_size(side: int, params: Params) -> int:
    correlations, transfers = counts_of(params)
    return 8 * correlations + 32 * transfers if side else 16 * correlations + 17 * transfers


def judged(side: int, data: bytes) -> Iterator[Tuple[int, int]]:
    """The elements of a file's body and the bytes of its bits, by where they begin and how long they are, in order."""
    params = params_of(data)
    correlations, transfers = counts_of(params)
    if side:
        yield 128, 8
    for unit in range(params.total):
        at = 128 + 8 * side + unit * unit_size(side, params)
        elements = correlations * (2 - side)
        yield from ((at + 8 * i, 8) for i in range(elements))
        if side == 0:
            yield from ((at + 8 * elements + 17 * i, 1) for i in range(transfers))


def file_stop(side: int, data: bytes) -> Optional[str]:
    """The line by which a dealt file of this side is refused."""
    if data[:8] not in MAGIC.values():
        return "refused BadMagic 1\n"
    if len(data) < 128:
        return f"refused Length 4 128 {len(data)}\n"
    if data[8] != side or data[9] > 1:
        return "refused BadKind 2\n"
    if not are_params(data):
        return "refused BadParam 3\n"
    params = params_of(data)
    need = 160 + 8 * side + params.total * unit_size(side, params)
    if len(data) != need:
        return f"refused Length 4 {need} {len(data)}\n"
    for at, size in judged(side, data):
        if number(data, at, size) >= (P if size == 8 else 2):
            return f"refused BadElement 5 {at}\n"
    if side and not any(data[128:136]):
        return "refused ZeroKey 6\n"
    return None if data[-32:] == sha256(data[:-32]) else "refused BadDigest 7\n"


def is_dealt(prover: bytes, verifier: bytes, unit: int) -> bool:
    """Whether a unit of both files fits."""
    params, key = params_of(prover), number(verifier, 128, 8)
    correlations, transfers = counts_of(params)
    p, v = 128 + unit * unit_size(0, params), 136 + unit * unit_size(1, params)
    for i in range(correlations):
        x, m = struct.unpack("<QQ", prover[p + 16 * i : p + 16 * i + 16])
        if number(verifier, v + 8 * i, 8) != (m + x * key) % P:
            return False
    p, v = p + 16 * correlations, v + 8 * correlations
    for i in range(transfers):
        side, pad = prover[p + 17 * i], prover[p + 17 * i + 1 : p + 17 * i + 17]
        if verifier[v + 32 * i + 16 * side : v + 32 * i + 16 * side + 16] != pad:
            return False
    return True


def undealt(prover: bytes, verifier: bytes) -> Optional[int]:
    """The first unit from which on files are not of one dealing."""
    if prover[9:64] + prover[96:128] != verifier[9:64] + verifier[96:128]:
        return 0
    return next((unit for unit in range(number(prover, 24, 8)) if not is_dealt(prover, verifier, unit)), None)


# ---- cases


def damaged(draw: random.Random, data: bytes) -> bytes:
    """These bytes with one edit to three, half of them in the first 136."""
    edited = bytearray(data)
    for _ in range(draw.choice([1, 1, 1, 2, 3])):
        most = len(edited) if draw.random() < 0.5 else min(len(edited), 136)
        at, size = draw.randint(0, most), draw.choice([1, 1, 2, 8, 32])
        kind = draw.choice(["flip", "flip", "flip", "set", "set", "cut", "put in", "left out", "again"])
        if kind == "flip" and at < len(edited):
            edited[at] ^= 1 << draw.randrange(8)
        elif kind == "set":
            edited[at : at + size] = draw.choice([bytes(size), b"\xff" * size, struct.pack("<Q", P), draw.randbytes(size)])
        elif kind == "cut":
            del edited[at:]
        elif kind == "put in":
            edited[at:at] = draw.randbytes(size)
        elif kind == "left out":
            del edited[at : at + size]
        else:
            edited[at:at] = edited[at : at + size]
    return bytes(edited)


def draw_text(draw: random.Random) -> bytes:
    [(_, _, make)] = draw.choices(reader_trial.DRAWN, weights=[weight for _, weight, _ in reader_trial.DRAWN])
    return make(draw)


def eval_case(draw: random.Random) -> Case:
    text = draw_text(draw)
    bits, line, status = reader_trial.due_of(text, draw)
    return Case(["eval", "text", bits], {"text": text}, Ran(line + "\n", status))


def rehearse_case(draw: random.Random) -> Case:
    text = draw_text(draw)
    words = ["rehearse", "text", reader_trial.due_of(text, draw)[0]]
    words += ["--section", str(draw.choice([1, 2, 3, 100, 2**20]))] * draw.randrange(2)
    words += ["--extended"] * (draw.random() < 0.2)
    files = {"text": text}
    return Case(words, files, modelled(words, files))


def log_case(draw: random.Random) -> Case:
    name = draw.choice(list(SUBJECTS))
    subject, file, circuit = SUBJECTS[name]
    outputs = "".join(map(str, subject.job(TOTAL).outputs))
    words = ["audit", circuit, outputs, f"{file}.prover", f"{file}.verifier", "log"]
    files = {"log": damaged(draw, whole()[name])}
    return Case(words, files, modelled(words, files))


def doorless(side: int, name: str) -> List[str]:
    """The words of this side's command over a dealt file, with an address that is none."""
    if side:
        return ["serve", "nowhere", name, "and", "1", "--sessions", "1"]
    return ["prove", "nowhere", name, "and", "11", "1"]


def file_case(draw: random.Random) -> Case:
    """A damaged dealt file, in an audit, or where it is used."""
    kind, side = draw.choice("xw"), draw.randrange(2)
    file = whole()[f"{kind}.{'verifier' if side else 'prover'}"]
    if draw.random() < 0.3:
        file = sealed(MAGIC[2] + file[8:-32])
    data = damaged(draw, file)
    if draw.random() < 0.5:
        data = data[:-32] + sha256(data[:-32])
    stop, files = file_stop(side, data), {"dealt": data}
    if draw.random() < 0.3:
        files["dealt.journal"] = journal(side, TOTAL)
        return Case(doorless(side, "dealt"), files, Ran(stop, 3) if stop else None, (3, 4))
    both = [data, whole()[f"{kind}.verifier"]] if side == 0 else [whole()[f"{kind}.prover"], data]
    names = ["dealt", f"{kind}.verifier"] if side == 0 else [f"{kind}.prover", "dealt"]
    words = ["audit", "and", "1", *names, "log.and" if kind == "x" else "log.wide"]
    if stop is None:
        unit = undealt(*both)
        stop = None if unit is None else f"refused NotDealt 8 {unit}\n"
    return Case(words, files, Ran(stop, 3) if stop else None, (0, 1, 3))


def journal_case(draw: random.Random) -> Case:
    side = draw.randrange(2)
    name = f"x.{'verifier' if side else 'prover'}"
    data = damaged(draw, whole()[f"{name}.journal"])
    words = doorless(side, name)
    return Case(words, {f"{name}.journal": data}, modelled(words, {}, data))


def statement_case(draw: random.Random) -> Case:
    text = reader_trial.damage_bytes(draw, whole()["statements"])
    words = ["serve-many", "nowhere", "x.verifier", "statements", "--sessions", "1"]
    files = {"statements": text, "x.verifier.journal": whole()["x.verifier.journal"]}
    return Case(words, files, modelled(words, files, files["x.verifier.journal"]))


CASES: Dict[str, Tuple[int, Callable[[random.Random], Case]]] = {
    "texts in eval": (25, eval_case),
    "texts in rehearse": (15, rehearse_case),
    "logs": (25, log_case),
    "dealt files": (20, file_case),
    "journals": (10, journal_case),
    "statements": (5, statement_case),
}


def case_of(index: int) -> Tuple[str, Case]:
    draw = random.Random(f"{SEED} {index}")
    [kind] = draw.choices(list(CASES), weights=[weight for weight, _ in CASES.values()])
    return kind, CASES[kind][1](draw)


# ---- runs


def own_folder(folder: str) -> pathlib.Path:
    """The folder of this process, with the whole files."""
    own = pathlib.Path(folder) / str(os.getpid())
    if not own.exists():
        own.mkdir()
        for name, data in whole().items():
            (own / name).write_bytes(data)
    return own


class Tried(NamedTuple):
    """What was damaged, the status that came, whether all of the answer was due, and how it differs."""

    kind: str
    status: int
    is_known: bool
    difference: Optional[str]


def try_one(path: str, folder: str, index: int) -> Tried:
    kind, case = case_of(index)
    own = own_folder(folder)
    for name, data in case.files.items():
        (own / name).write_bytes(data)
    try:
        done = subprocess.run([path, *case.words], cwd=own, stdin=subprocess.DEVNULL, capture_output=True, timeout=SECONDS)
    except subprocess.TimeoutExpired:
        return Tried(kind, 0, case.due is not None, f"{kind}, number {index}: no end in {SECONDS} seconds")
    ran = Ran((done.stdout + done.stderr).decode(errors="replace"), done.returncode)
    if ran == case.due or (case.due is None and ran.status in case.statuses):
        return Tried(kind, ran.status, case.due is not None, None)
    given = " ".join(word[:100] for word in case.words)
    files = ", ".join(f"{name} {data[:2000]!r}" for name, data in case.files.items())
    return Tried(kind, ran.status, case.due is not None, f"{kind}, number {index}: {given}\n  {files}\n  {ran}\n  due {case.due}")


def check_damaged(path: str, folder: pathlib.Path, count: int) -> List[str]:
    """Runs on so many damaged files; prints what came of them, and gives what was found."""
    own = folder / "damaged"
    own.mkdir()
    whole(), reader_trial.planned_texts()
    with Pool(os.cpu_count()) as pool:
        tried = list(pool.imap_unordered(functools.partial(try_one, path, str(own)), range(count), 50))
    kinds, statuses = Counter(each.kind for each in tried), Counter(each.status for each in tried)
    known = sum(each.is_known for each in tried)
    print("damaged: " + ", ".join(f"{kind} {kinds[kind]}" for kind in CASES))
    print("statuses: " + ", ".join(f"{status} {statuses[status]}" for status in sorted(statuses)))
    print(f"{len(tried)} runs on damaged files, of {known} the whole answer was known", flush=True)
    return [each.difference for each in tried if each.difference]
