#!/usr/bin/env python3
"""Measures a program at the largest sizes: circuits of 2^22, 2^23 and 2^24 wires, and dealt files of 2^30 bytes.

`largest.py PROGRAM` prints for each circuit (64 inputs, and gates as `circuits.py random` draws them) what `eval` and
`rehearse --extended` take, and then what `deal` of 1,048,575 direct units takes, and `prove` over the prover's file up to where it
finds no peer: elapsed seconds and resident memory of one run each. It wants `/usr/bin/time` (GNU), 4 GB of room in the folder for
temporary files, and 24 GB of memory. Nothing else should run meanwhile.
"""
import pathlib
import shlex
import sys
import tempfile
from typing import List

from circuits import INPUTS, MAX_OUTPUTS, MIXED, gate_rows
from costs import Cost, measure

BITS = "01" * (INPUTS // 2)
WIRES = [2**22, 2**23, 2**24]
UNITS = 1_048_575


def write_circuit(path: pathlib.Path, gates: int) -> None:
    """A circuit of so many gates, line by line: its text has up to some 450 MB."""
    with path.open("w") as text:
        text.write(f"{gates} {INPUTS + gates}\n1 {INPUTS}\n1 {MAX_OUTPUTS}\n")
        text.writelines(row + "\n" for row in gate_rows(gates, gates, MIXED))


def row(what: str, size: int, cost: Cost) -> str:
    return f"| {what} | {size:,} | {cost.seconds:.2f} | {cost.kilobytes:,} |"


def refused(words: List[str], folder: str) -> Cost:
    """What a run takes that ends because it finds no peer."""
    return measure(["sh", "-c", f"{shlex.join(words)}; test $? -eq 4"], folder)


def main() -> None:
    if len(sys.argv) != 2:
        sys.exit("largest.py PROGRAM")
    program = str(pathlib.Path(sys.argv[1]).resolve())
    print("| What | Bytes | Seconds | KB |\n|---|---|---|---|", flush=True)
    with tempfile.TemporaryDirectory() as folder:
        text = pathlib.Path(folder) / "text"
        for wires in WIRES:
            write_circuit(text, wires - INPUTS)
            size = text.stat().st_size
            for words in (["eval"], ["rehearse"]):
                more = ["--extended"] if words == ["rehearse"] else []
                cost = measure([program, *words, str(text), BITS, *more], folder)
                print(row(f"{words[0]}, {wires:,} wires", size, cost), flush=True)
        text.unlink()
        dealt = f"{folder}/dealt"
        cost = measure([program, "deal", dealt, "--units", str(UNITS)], folder)
        size = pathlib.Path(f"{dealt}.prover").stat().st_size
        print(row(f"deal, {UNITS:,} units", size, cost), flush=True)
        text.write_text("1 3\n1 2\n1 1\n2 1 0 1 2 AND\n")
        cost = refused([program, "prove", "127.0.0.1:1", f"{dealt}.prover", str(text), "11", "1"], folder)
        print(row("prove, up to its door", size, cost), flush=True)


if __name__ == "__main__":
    main()
