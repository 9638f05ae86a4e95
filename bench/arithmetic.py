#!/usr/bin/env python3
"""Compares how fast arithmetic circuits are read and rehearsed with how fast Boolean ones are, and how much memory both take.

`arithmetic.py PROGRAM [--extended]` runs `rehearse-arith` on chains of MUL gates and `rehearse` on the same chains of AND gates, each of
the wire before and input 0, in sections of the default length and over files of the one kind or the other, as `costs.py` says: of
131,000 gates, and in kind extended of a million. It prints the best of seven times (elapsed seconds of the whole run) and the largest
resident memory of each; and before each the same of runs that end once the circuit is read, since they are given too few inputs. The
other is here the Boolean chain.
"""
import pathlib
import sys
import tempfile
from typing import List

from circuits import chain
from costs import compare, row, table_head


def products(gates: int) -> str:
    """An arithmetic circuit of two inputs and so many gates MUL, each of the wire before and input 0."""
    rows = [f"{gates} {gates + 2} 2 1"]
    rows += [f"MUL 0 {i + 1} {i + 2}" for i in range(gates)]
    return "\n".join(rows) + "\n"


def measure(program: str, gates: int, kind: List[str], folder: str) -> None:
    """Prints the rows of chains of so many gates."""
    place = pathlib.Path(folder)
    (place / "mul").write_text(products(gates))
    (place / "and").write_text(chain(gates, ["AND"]))
    (place / "few").write_text("")
    (place / "values").write_text("3 5\n")
    for what, values, bits in (("read", "few", "1"), ("rehearsed", "values", "11")):
        given = [f"{program} rehearse-arith {place}/mul {place}/{values} @", f"{program} rehearse {place}/and {bits} @"]
        print(row(f"{gates:,} {what}", compare(given, kind, folder)), flush=True)


def main() -> None:
    program, kind = sys.argv[1:2], sys.argv[2:]
    if len(program) != 1 or kind not in ([], ["--extended"]):
        sys.exit("arithmetic.py PROGRAM [--extended]")
    print(table_head("Gates"))
    with tempfile.TemporaryDirectory() as folder:
        for gates in (131_000, 1_000_000) if kind else (131_000,):
            measure(program[0], gates, kind, folder)


if __name__ == "__main__":
    main()
