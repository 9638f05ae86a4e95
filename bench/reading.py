#!/usr/bin/env python3
"""Compares how fast two programs read circuits, and how much memory they take.

`reading.py PROGRAM OTHER` runs `eval FILE BITS` of both on the same texts, as `costs.py` says, and prints the best of seven times
(elapsed seconds of the whole run) and the largest resident memory of each. The texts are

  - circuits of 131,000 and of 1,000,000 gates: XOR, AND and INV of wires that are drawn from those before;
  - 64 MiB of `1 `, which is refused at a token near its start.
"""
import pathlib
import sys
import tempfile

from circuits import INPUTS, random_circuit
from costs import compare, row, table_head

BITS = "01" * (INPUTS // 2)
NAMES = ["XOR", "XOR", "AND", "INV"]


def main() -> None:
    given = sys.argv[1:]
    if len(given) != 2:
        sys.exit("reading.py PROGRAM OTHER")
    texts = [(f"{gates:,} gates", random_circuit(gates, gates, NAMES)) for gates in (131_000, 1_000_000)]
    print(table_head("Text"))
    with tempfile.TemporaryDirectory() as folder:
        file = f"{folder}/text"
        for name, text in texts + [("64 MiB of `1 `", "1 " * 2**25)]:
            pathlib.Path(file).write_text(text)
            print(row(name, compare(given, ["eval", file, BITS], folder)), flush=True)


if __name__ == "__main__":
    main()
