#!/usr/bin/env python3
"""Compares how a program reads circuits with how `bristol.py` does, on random and damaged texts.

`reader_trial.py PROGRAM [N]` runs `PROGRAM eval FILE BITS` on N texts (20,000), and compares what it prints and the
status that it ends with. The texts are the same in every run. First come those of `LARGE`, at the limits; then every
other one is of `planned_texts` while there are such, which go through one small circuit token by token and through
gates that are wrong in two ways; all else is drawn from a fixed seed. It prints how often each answer was due and the
first differences, and ends with 1 where there are any.

`reader_trial.py --show I` writes the text of trial I.
"""
import argparse
import functools
import multiprocessing
import os
import random
import subprocess
import sys
import tempfile
from collections import Counter
from typing import Callable, List, NamedTuple, Optional, Tuple

import bristol

SEED = "zk"
SECONDS = 120  # that a run may take
SHOWN = 5  # differences
MOST_BITS = 100_000  # in a word of the command line, of which Linux passes no larger than 128 KiB

BLANKS = [b" ", b"\t", b"\r", b"\n"]

NUMBERS = [0, 1, 2, 3, 4, 7, 8, 9, 10, 255, 256, 1023, 1024, 1025, 2**16, 2**20, 2**24 - 1, 2**24, 2**24 + 1, 2**31]
NUMBERS += [2**32 - 1, 2**32, 2**32 + 1, 2**63, 2**64 - 1, 2**64, 2**64 + 1, 2**64 + 2, 2**128 + 1, 10**40]
SPELLINGS = [b"%d" % number for number in NUMBERS]
SPELLINGS += [b"00", b"01", b"0002", b"0" * 300, b"0" * 300 + b"1", b"0" * 25 + b"16777217", b"1" + b"0" * 400]
SPELLINGS += [b"9" * 5000]

# Numbers elsewhere, or nearly.
NO_NUMBERS = [b"-1", b"+1", b"-0", b"1.", b"1.0", b"1e0", b"0x1", b"1_0", b"1,", b"#", b'"1"', b"/", b":", b"0:", b"1/"]
NO_NUMBERS += [b"\x0b1", b"1\x0c", b"1\x00", b"\x00", b"\x1f", b"1\x1c2", b"\x85", b"1\xa0", b"\xc2\xa01", b"\xff"]
NO_NUMBERS += ["１".encode(), "²".encode(), "١".encode(), "1\u2028".encode(), b"\xef\xbb\xbf1"]

NAMES = [b"XOR", b"AND", b"INV", b"EQ", b"EQW"]
NO_NAMES = [b"MAND", b"NAND", b"NOT", b"OR", b"XNOR", b"xor", b"And", b"inv", b"eq", b"EQw", b"XO", b"X", b"AN", b"IN"]
NO_NAMES += [b"E", b"XORR", b"ANDD", b"INVV", b"EQQ", b"EQWW", b"EQWEQ", b"XXOR", b"EQ1", b"1EQ", b"XOR,", b"XOR\x00"]
NO_NAMES += [b"AND\x0b", b"\x0cAND", b"INV\xa0", b"EQ\xff", b"\xef\xbb\xbfINV", b"EQ\x00W", b"A" * 5000]
NO_NAMES += ["ＸＯＲ".encode()]

POOL = SPELLINGS + NO_NUMBERS + NAMES + NO_NAMES

Random = random.Random
Tokens = List[bytes]


# ---- texts that are drawn


def split(draw: Random, total: int, most: int) -> List[int]:
    """Sizes of values, up to so many, that are so many wires together; some are 0."""
    if total == 0:
        return [0] * draw.choice([0, 0, 1, 3])
    cuts = sorted(draw.randint(0, total) for _ in range(draw.randrange(most)))
    return [end - start for start, end in zip([0] + cuts, cuts + [total])]


def draw_gate(draw: Random, ready: List[int], output: int) -> Tokens:
    """A gate that reads wires out of those that are ready."""
    name = draw.choice(NAMES) if ready else b"EQ"
    count = 2 if name in (b"XOR", b"AND") else 1
    reads = [draw.randrange(2) if name == b"EQ" else draw.choice(ready) for _ in range(count)]
    return [b"%d" % number for number in [count, 1, *reads, output]] + [name]


def draw_circuit(draw: Random) -> Tokens:
    """The tokens of a circuit. Gates set wires in any order, some wires stay unset, and outputs may be inputs."""
    inputs = draw.choice([0, 1, 2, 3, 5, draw.randrange(40)])
    gate_count = draw.choice([0, 1, 2, 5, 10, draw.randrange(100)])
    wires = inputs + gate_count + draw.choice([0, 0, 1, 3])
    targets = draw.sample(range(inputs, wires), gate_count)
    if draw.random() < 0.5:
        targets.sort()
    ready, gates = list(range(inputs)), []
    for output in targets:
        gates += draw_gate(draw, ready, output)
        ready.append(output)
    unset = set(range(wires)) - set(ready)
    most_outputs = wires - 1 - max(unset, default=-1)
    outputs = draw.choice([most_outputs, draw.randint(0, most_outputs)])
    header = [gate_count, wires]
    for total in (inputs, outputs):
        sizes = split(draw, total, draw.choice([1, 2, 3, 30]))
        header += [len(sizes), *sizes]
    return [b"%d" % number for number in header] + gates


def draw_blanks(draw: Random) -> bytes:
    """One blank or more."""
    return b"".join(draw.choices(BLANKS, k=draw.choice([1, 1, 1, 2, 5])))


def spell(draw: Random, tokens: Tokens) -> bytes:
    """A text of these tokens. Numbers may get zeros before them; blanks are single spaces, or any."""
    zeros = draw.choice([0, 0, 0, 0.1, 0.9])
    tokens = [
        b"0" * draw.choice([1, 2, 9, 20, 200]) + token if token.isdigit() and draw.random() < zeros else token
        for token in tokens
    ]
    if draw.random() < 0.5:
        return b" ".join(tokens) + draw.choice([b"", b"\n"])
    edges = [draw.choice([b"", draw_blanks(draw)]) for _ in range(2)]
    return edges[0] + b"".join(token + draw_blanks(draw) for token in tokens[:-1]) + b"".join(tokens[-1:]) + edges[1]


def draw_other(draw: Random, tokens: Tokens, at: int) -> bytes:
    """A token to stand in place of one: any, another of the text, or a number near it or apart by a power of 2."""
    if tokens[at].isdigit() and draw.random() < 0.5:
        number = int(tokens[at][-15:])
        near = [number + 1, max(number - 1, 0), number + 2 ** draw.choice([8, 16, 20, 32, 64, 128])]
        return b"%d" % draw.choice(near)
    return draw.choice([draw.choice(POOL), draw.choice(tokens)])


def damage(draw: Random, tokens: Tokens) -> Tokens:
    """These tokens, if there are any, with one edit."""
    if not tokens:
        return tokens
    at, other = draw.randrange(len(tokens)), draw.randrange(len(tokens))
    kind = draw.choice(["replace", "replace", "replace", "end", "drop", "insert", "swap", "behind", "name", "start"])
    edited = list(tokens)
    if kind == "end":
        return edited[:at]
    if kind == "drop":
        del edited[at]
    elif kind == "insert":
        edited.insert(at, draw_other(draw, tokens, at))
    elif kind == "swap":
        edited[at], edited[other] = edited[other], edited[at]
    elif kind == "behind":
        edited.append(draw_other(draw, tokens, at))
    else:
        names = [place for place, token in enumerate(tokens) if token in NAMES]
        if kind == "name" and names:
            edited[draw.choice(names)] = draw.choice(NAMES + NO_NAMES)
        else:
            place = min(at, draw.randrange(8)) if kind == "start" else at
            edited[place] = draw_other(draw, tokens, place)
    return edited


def damage_bytes(draw: Random, text: bytes) -> bytes:
    """This text with a few bytes replaced, put in or left out."""
    edited = bytearray(text)
    for _ in range(draw.choice([1, 1, 2, 3])):
        at = draw.randrange(len(edited) + 1)
        kind = draw.randrange(3)
        edited[at : at + (kind > 0)] = bytes([draw.choice([draw.randrange(256), *b" \t\r\n019"])] * (kind < 2))
    return bytes(edited)


def draw_damaged(draw: Random) -> bytes:
    tokens = draw_circuit(draw)
    for _ in range(draw.choice([1, 1, 1, 2, 3])):
        tokens = damage(draw, tokens)
    return spell(draw, tokens)


def draw_header(draw: Random) -> bytes:
    """A header whose numbers are about their limits, and nothing behind it, mostly."""
    wires = draw.choice([0, 1, 10, 1024, 2**20, 2**24, 2**24 + 1, 2**32])
    header = [draw.choice([0, 0, 0, 1, 2**24, 2**24 + 1]), wires]
    for _ in range(2):
        values = draw.choice([0, 1, 2, 3, 1023, 1024, 1025])
        sizes = [wires // values if values else 0] * values
        if sizes and draw.random() < 0.7:
            at = draw.randrange(len(sizes))
            sizes[at] += wires - sum(sizes) + draw.choice([0, 0, 1, -1, 2**32, 2**64])
        header += [values] + [max(size, 0) for size in sizes]
    return spell(draw, [b"%d" % number for number in header] + draw.choices(POOL, k=draw.choice([0, 0, 1])))


def draw_pool(draw: Random) -> bytes:
    """Tokens of all kinds."""
    pool = draw.choice([POOL, SPELLINGS, [b"0", b"1", b"2", b"3", *NAMES]])
    return spell(draw, draw.choices(pool, k=draw.randrange(40)))


def draw_noise(draw: Random) -> bytes:
    """Any bytes, or some that texts have."""
    alphabet = draw.choice([bytes(range(256)), b"0123 \n", b"01 \t\r\nXORANDINVEQW", b" \t\r\n\x0b\x0c1"])
    return bytes(draw.choices(alphabet, k=draw.randrange(80)))


DRAWN: List[Tuple[str, int, Callable[[Random], bytes]]] = [
    ("circuit", 20, lambda draw: spell(draw, draw_circuit(draw))),
    ("damaged tokens", 50, draw_damaged),
    ("damaged bytes", 12, lambda draw: damage_bytes(draw, spell(draw, draw_circuit(draw)))),
    ("header", 8, draw_header),
    ("pool", 6, draw_pool),
    ("noise", 4, draw_noise),
]


# ---- texts that are planned

# A circuit of all five gates, with a wire that stays unset.
BASE = b"5 8 2 1 1 2 1 2 2 1 0 1 3 XOR 2 1 0 3 4 AND 1 1 4 5 INV 1 1 1 6 EQ 1 1 5 7 EQW"


def edits_of_base() -> List[bytes]:
    """BASE ended at each byte, with each token replaced by each other one or left out, and each two swapped."""
    tokens = BASE.split(b" ")
    texts = [BASE[:end] for end in range(len(BASE) + 1)]
    for at in range(len(tokens)):
        before, behind = tokens[:at], tokens[at + 1 :]
        texts += [b" ".join(before + [other] + behind) for other in POOL]
        texts.append(b" ".join(before + behind))
        for far in range(at + 1, len(tokens)):
            texts.append(b" ".join(before + [tokens[far]] + tokens[at + 1 : far] + [tokens[at]] + tokens[far + 1 :]))
    texts += [BASE + b" " + other for other in POOL]
    return texts


def blanks_of_base() -> List[bytes]:
    """BASE with each byte that is no digit and no letter in place of one blank, and of all."""
    texts = []
    for byte in sorted(set(range(256)) - set(b"0123456789ADEINOQRVWX")):
        texts += [BASE.replace(b" ", bytes([byte]), 1), BASE.replace(b" ", bytes([byte])), BASE + bytes([byte])]
    return texts


def pairs_of_faults() -> List[bytes]:
    """Gates that are wrong in two places, behind a right one."""
    texts = []
    for reads in ("0 9", "9 2", "2 9", "2 0", "x 9", "9 x", "0 1"):
        for output in ("0", "9", "3", "x", "2"):
            for name in ("AND", "MAND", "INV", "7", "", "AND 1", "AND 1 1 9 9 INV"):
                texts.append(f"2 4 1 2 1 1 2 1 0 1 3 AND 2 1 {reads} {output} {name}".encode())
    for read in ("0", "1", "2", "9", "x"):
        for output in ("0", "9", "3", "x", "2"):
            for name in ("EQ", "EQW", "INV", "XOR", ""):
                texts.append(f"2 4 1 1 1 1 1 1 0 3 INV 1 1 {read} {output} {name}".encode())
    for counts in ("0 1", "3 1", "x 1", "1 0", "1 2", "2 x", "3 x", "x 3", "1", "3", "2 1", "1 1"):
        for rest in ("", " 0", " 9 9", " x 1 AND", " 0 1 2 AND", " 0 1 AND", " 0 2 INV"):
            texts.append(f"1 3 1 2 1 1 {counts}{rest}".encode())
    return texts


def chain(gates: int, wires: int, tail: str) -> bytes:
    """A header without inputs that ends in this tail, and gates that set the first wires in order, to 0 or 1."""
    rows = b"".join(b"1 1 %d %d EQ\n" % (at % 2, at) for at in range(gates))
    return f"{gates} {wires} 0 {tail}\n".encode() + rows


LARGE: List[Callable[[], bytes]] = [
    lambda: chain(2**20, 2**20, "1 9"),
    lambda: chain(2**20 - 1, 2**20, "1 9"),
    lambda: chain(2**20, 2**20 - 1, "1 9"),
    lambda: chain(2**20, 2**20, "1 1048576") + b"0",
    lambda: chain(2**20, 2**20, "1024 " + "1024 " * 1024),
    lambda: chain(2**20 + 1, 2**20, "1 9"),
    lambda: chain(2**20, 2**20 + 1, "1 9"),
    lambda: chain(2**20, 2**20, "1 9")[:-4],
    lambda: b"16777216 16777216 1 9",
    lambda: b"16777217 16777216 1 9",
    lambda: b"16777216 16777217 1 9",
    lambda: b"0 16777216 2 16777215 1 1 1",
    lambda: b"0 16777216 1024 " + b"16384 " * 1024 + b"0",
    lambda: b"0 16777216 1024 " + b"16384 " * 1023 + b"16385 0",
    lambda: b"0 16777216 1025 " + b"1 " * 1025 + b"0",
    lambda: b"0 16777216 0 1025 " + b"1 " * 1025,
    lambda: b"0 0 1024 " + b"0 " * 1024 + b"1024 " + b"0 " * 1024,
    lambda: b"0" * 1_000_000 + b" 1 1 1 1 1",
    lambda: b"0 1 1 1 1 1" + b"0" * 1_000_000,
    lambda: b"0 1 1 1 1 " + b"9" * 1_000_000 + b" 1",
    lambda: b"0 1 1 1 1 " + b"9" * 1_000_000 + b"x",
    lambda: b"0 1 1 1 1 1" + b" " * (bristol.MOST_BYTES - 11),
    lambda: b"0 1 1 1 1 1" + b" " * (bristol.MOST_BYTES - 10),
    lambda: b"0 1 1 1 1 1" + b" " * (bristol.MOST_BYTES - 12) + b"1",
    lambda: b"1 " * 2**25,
]


@functools.lru_cache(maxsize=None)
def planned_texts() -> Tuple[bytes, ...]:
    """The planned texts that are small, in an order that is drawn."""
    texts = edits_of_base() + blanks_of_base() + pairs_of_faults()
    Random(SEED).shuffle(texts)
    return tuple(texts)


# ---- trials


class Trial(NamedTuple):
    """A text, how it was made, the word of bits that it is tried with, and the line and the status that are due."""

    kind: str
    text: bytes
    bits: str
    line: str
    status: int


def draw_bits(draw: Random, need: int) -> str:
    """A word of bits: as many as are needed, mostly."""
    count = max(0, need + draw.choice([0] * 12 + [-1, 1, 7]))
    return bristol.word_of(draw.choices([0, 1], k=min(count, MOST_BITS)))


def due_of(text: bytes, draw: Random) -> Tuple[str, str, int]:
    """A word of bits for this text, and the line and the status that are due."""
    if len(text) > bristol.MOST_BYTES:
        return "none", f"refused TooLong 0 {bristol.MOST_BYTES}", 3
    found = bristol.read(text)
    is_read = isinstance(found, bristol.Circuit)
    bits = draw_bits(draw, found.inputs if is_read else draw.randrange(4))
    line, status = bristol.eval_found(found, bits)
    return bits, line, status


def trial_of(index: int) -> Trial:
    """The trial of this number."""
    draw = Random(f"{SEED} {index}")
    texts = planned_texts()
    planned, is_drawn = divmod(index - len(LARGE), 2)
    if index < len(LARGE):
        kind, text = "large", LARGE[index]()
    elif not is_drawn and planned < len(texts):
        kind, text = "planned", texts[planned]
    else:
        kind, _, make = draw.choices(DRAWN, weights=[weight for _, weight, _ in DRAWN])[0]
        text = make(draw)
    return Trial(kind, text, *due_of(text, draw))


def label_of(line: str) -> str:
    """What is counted: the name of what is refused, or outputs."""
    return line.split(" ")[1] if line.startswith("refused ") else "outputs"


def answer_of(output: bytes, status: int, errors: bytes) -> str:
    """What a program wrote and ended with, in words."""
    return f"{output!r}, status {status}" + (f", on standard error {errors!r}" if errors else "")


def run(program: str, folder: str, trial: Trial) -> str:
    """What the program does with the trial, in words."""
    path = os.path.join(folder, f"trial_{os.getpid()}.txt")
    with open(path, "wb") as file:
        file.write(trial.text)
    words = [program, "eval", path, trial.bits]
    try:
        done = subprocess.run(words, stdin=subprocess.DEVNULL, capture_output=True, timeout=SECONDS)
    except subprocess.TimeoutExpired:
        return f"no end in {SECONDS} seconds"
    return answer_of(done.stdout, done.returncode, done.stderr)


def try_one(program: str, folder: str, index: int) -> Tuple[int, str, str, Optional[str]]:
    """The trial's number, its kind, what was due, and how the program differs, if it does."""
    trial = trial_of(index)
    label = label_of(trial.line)
    due, got = answer_of((trial.line + "\n").encode(), trial.status, b""), run(program, folder, trial)
    if got == due:
        return index, trial.kind, label, None
    text = repr(trial.text) if len(trial.text) <= 1000 else f"{len(trial.text)} bytes"
    parts = [f"text {text}", f"bits {trial.bits[:100]}", f"due {due[:1000]}", f"got {got[:1000]}"]
    return index, trial.kind, label, "\n  ".join(parts)


def report(results: List[Tuple[int, str, str, Optional[str]]]) -> int:
    """Prints the counts and the first differences, and answers the status."""
    results.sort()
    for title, column in (("texts", 1), ("answers", 2)):
        counts = Counter(result[column] for result in results)
        print(f"{title}: " + ", ".join(f"{name} {count}" for name, count in counts.most_common()))
    missing = set(bristol.FAULTS) - {result[2] for result in results}
    if missing:
        print("no trial of " + ", ".join(sorted(missing)))
    different = [result for result in results if result[3]]
    for index, kind, _, difference in different[:SHOWN]:
        print(f"trial {index} ({kind}):\n  {difference}")
    print(f"{len(results)} trials, {len(different)} differences")
    return 1 if different else 0


def main() -> int:
    words = argparse.ArgumentParser(description="Compares how a program reads circuits with how bristol.py does.")
    words.add_argument("program", nargs="?", help="path of the program")
    words.add_argument("n", nargs="?", type=int, default=20_000, help="number of trials (20,000)")
    words.add_argument("--processes", type=int, default=os.cpu_count(), help="how many run at once")
    words.add_argument("--show", type=int, metavar="I", help="write the text of trial I instead")
    given = words.parse_args()
    if given.show is not None:
        sys.stdout.buffer.write(trial_of(given.show).text)
        return 0
    if given.program is None:
        words.error("a program is wanted")
    planned_texts()
    with tempfile.TemporaryDirectory() as folder, multiprocessing.Pool(given.processes) as pool:
        call = functools.partial(try_one, os.path.abspath(given.program), folder)
        return report(list(pool.imap_unordered(call, range(given.n))))


if __name__ == "__main__":
    sys.exit(main())
