#!/usr/bin/env python3
"""Measures an audit of the log of a session about a million generated gates over extended files.

`auditing.py PROGRAM` serves one such session, and prints the processor seconds of `serve`, with the loading of its files, and those of
`audit` on the log that it stores, each the best of three turns.
"""
import pathlib
import re
import sys
import tempfile

from serving import MILLION, Bench, bench_of, blank, run

TOP = pathlib.Path(__file__).resolve().parent.parent
sys.path.insert(0, str(TOP / "vectors"))

from processes import Service, end_all  # noqa: E402

TURNS = 3
CLOCK = re.compile(r"clock ([\d.]+) ([\d.]+)\n")


def clocked(program: str) -> list:
    """The words that run a program, and then print its processor seconds."""
    return ["/bin/bash", "-c", 'TIMEFORMAT="clock %U %S"; { time "$@"; } 2>&1', "bash", program]


def seconds(text: str) -> float:
    found = CLOCK.search(text)
    assert found, text
    return float(found[1]) + float(found[2])


def served(bench: Bench) -> float:
    """Serves one session, and stores its log."""
    blank(bench)
    words = ["x.verifier", "circuit", bench.outputs, "--sessions", "1", "--logs", "log"]
    service = Service(clocked(bench.program), bench.folder, words)
    run([bench.program, "prove", service.place(), "p0", *bench.words(), bench.outputs], bench.folder)
    text, status = service.end()
    assert status == 0 and "accepted" in text, text
    return seconds(text)


def audited(bench: Bench) -> float:
    text = run([*clocked(bench.program), "audit", "circuit", bench.outputs, "x.prover", "x.verifier", "log.0"], bench.folder)
    return seconds(text)


def main() -> int:
    program = str(pathlib.Path(sys.argv[1]).resolve())
    with tempfile.TemporaryDirectory() as name:
        try:
            bench = bench_of(MILLION, 1, pathlib.Path(name) / "million", program)
            serving = min(served(bench) for _ in range(TURNS))
            auditing = min(audited(bench) for _ in range(TURNS))
        finally:
            end_all()
    print(f"serve {serving:.2f} s, audit {auditing:.2f} s: {auditing / serving:.2f} times")
    return 0


if __name__ == "__main__":
    sys.exit(main())
