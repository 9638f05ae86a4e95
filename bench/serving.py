#!/usr/bin/env python3
"""Measures sessions of two processes: `serve` and `prove`, over connections of this machine.

`serving.py PROGRAM OTHER` prints two tables.

The first has, of AND and of AES-128 over files of both kinds, how many sessions a second there are where
one `serve` has 1, 2, 4 or 8 workers, and as many `prove` at once call it, one process a session: process
start and loading of files are in it, and so it also has the size of the prover's file. The provers have
copies of that file, each with a journal of its own: that is for measuring alone, as a prover's file
belongs with one journal. Beside it stand as many rehearsals a second, four at once: of this program, and
of OTHER, as `costs.py` has it. The last row has sessions with connections of this script, which knows
what an honest prover sends, so that the verifier alone is measured. All are the best of three turns.

The second has the seconds of a session about a million gates over extended files: of `serve` until it
listens, of `prove` from its start to its end, and of both from the start of `serve` to the end of both;
and of a rehearsal by each program. It has the best of seven turns.
"""
import functools
import pathlib
import shutil
import socket
import subprocess
import sys
import tempfile
import threading
import time
from typing import Callable, Dict, List, NamedTuple

from circuits import INPUTS, MIXED, random_circuit
from costs import TURNS, command

TOP = pathlib.Path(__file__).resolve().parent.parent
sys.path.insert(0, str(TOP / "vectors"))

from dealt_files import deal, journal  # noqa: E402
from ends import hold  # noqa: E402
from parties import AES, AES_BITS, DIRECT, WIDE, Subject  # noqa: E402
from processes import SECONDS, Service, at_once, end_all  # noqa: E402
from published import AND_GATE  # noqa: E402

WORKERS = [1, 2, 4, 8]
AT_ONCE = 4  # rehearsals
RATE_TURNS = 3
RATED = [
    (Subject("AND", AND_GATE, "11", DIRECT), 400),
    (Subject("AND", AND_GATE, "11", WIDE), 100),
    (Subject("AES-128", AES, AES_BITS, DIRECT), 12),
    (Subject("AES-128", AES, AES_BITS, WIDE), 40),
]
GENERATED = random_circuit(1_000_000, 1, MIXED).encode()
MILLION = Subject("1,000,000 generated", GENERATED, "01" * (INPUTS // 2), WIDE)


class Bench(NamedTuple):
    """What is measured: sessions about this, so many in a run, of so many units and with these outputs."""

    subject: Subject
    sessions: int
    size: int
    outputs: str
    folder: pathlib.Path
    program: str

    def words(self) -> List[str]:
        return ["circuit", self.subject.bits]

    def extended(self) -> List[str]:
        return ["--extended"] if self.subject.kind.kind else []


def run(words: List[str], folder: pathlib.Path) -> str:
    done = subprocess.run(words, cwd=folder, stdout=subprocess.PIPE, timeout=SECONDS)
    if done.returncode != 0:
        sys.exit(f"{words} ended with {done.returncode}: {done.stdout.decode()}")
    return done.stdout.decode()


def bench_of(subject: Subject, sessions: int, folder: pathlib.Path, program: str) -> Bench:
    """Deals for so many sessions, and keeps blank journals."""
    folder.mkdir()
    (folder / "circuit").write_bytes(subject.text)
    size, kind = subject.size(), subject.kind
    outputs = run([program, "eval", "circuit", subject.bits], folder).strip()
    numbers = ["--trees", str(kind.trees), "--height", str(kind.height), "--base", str(kind.base)]
    numbers = numbers if kind.kind else []
    run([program, "deal", "x", "--units", str(sessions * size + 16), *numbers], folder)
    for number in range(max(WORKERS)):
        (folder / f"p{number}").hardlink_to(folder / "x.prover")
    for side in ("prover", "verifier"):
        shutil.copy(folder / f"x.{side}.journal", folder / f"{side}.blank")
    return Bench(subject, sessions, size, outputs, folder, program)


def blank(bench: Bench) -> None:
    """Puts blank journals in place."""
    shutil.copy(bench.folder / "verifier.blank", bench.folder / "x.verifier.journal")
    for number in range(max(WORKERS)):
        shutil.copy(bench.folder / "prover.blank", bench.folder / f"p{number}.journal")


def side_by_side(count: int, width: int, each: Callable[[int], None]) -> None:
    """Does this so often, so many at once; each is given the number of its row of turns."""
    left = iter(range(count))
    lock = threading.Lock()

    def turns(number: int) -> None:
        while True:
            with lock:
                if next(left, None) is None:
                    return
            each(number)

    at_once([functools.partial(turns, number) for number in range(width)])


def service_of(bench: Bench, workers: int) -> Service:
    words = ["x.verifier", "circuit", bench.outputs, "--sessions", str(bench.sessions)]
    return Service([bench.program], bench.folder, [*words, "--workers", str(workers)])


def end_service(bench: Bench, service: Service) -> None:
    text, status = service.end()
    if status != 0 or text.count("accepted\n") != bench.sessions:
        sys.exit(f"serve ended with {status}: {text}")


def served(bench: Bench, workers: int) -> float:
    """Sessions a second of two processes each."""
    blank(bench)
    service = service_of(bench, workers)
    start = time.perf_counter()

    def prove(number: int) -> None:
        words = ["prove", service.place(), f"p{number}", *bench.words(), bench.outputs]
        run([bench.program, *words], bench.folder)

    side_by_side(bench.sessions, workers, prove)
    end_service(bench, service)
    return bench.sessions / (time.perf_counter() - start)


def rehearsed(bench: Bench, given: str, width: int) -> float:
    """Rehearsals a second."""
    words = command(given, ["rehearse", *bench.words(), *bench.extended()])
    start = time.perf_counter()
    side_by_side(bench.sessions, width, lambda _: run(words, bench.folder) and None)
    return bench.sessions / (time.perf_counter() - start)


def scripted_prover(service: Service, scripts: Dict[int, bytes]) -> None:
    """A session of which all that the prover sends is known once the grant has come."""
    with socket.create_connection(service.address, timeout=SECONDS) as stream:
        stream.sendall(scripts[0][:102])
        grant = stream.recv(21, socket.MSG_WAITALL)
        stream.sendall(scripts[int.from_bytes(grant[5:13], "little")][102:])
        while stream.recv(4096):
            pass


def scripted(bench: Bench, workers: int, scripts: Dict[int, bytes]) -> float:
    """Sessions a second with connections of this process."""
    blank(bench)
    service = service_of(bench, workers)
    start = time.perf_counter()
    side_by_side(bench.sessions, workers, lambda _: scripted_prover(service, scripts))
    end_service(bench, service)
    return bench.sessions / (time.perf_counter() - start)


def scripted_bench(bench: Bench, folder: pathlib.Path) -> Dict[int, bytes]:
    """Puts files of a known seed in place, and gives what an honest prover sends, by its first unit."""
    total = bench.sessions * bench.size
    prover, verifier = deal(bench.subject.kind._replace(total=total))
    (folder / "x.verifier").write_bytes(verifier)
    (folder / "verifier.blank").write_bytes(journal(1, total))
    job = bench.subject.job(total)
    return {start: hold(job, start)[0] for start in range(0, total, bench.size)}


def best_rates(measures: List[Callable[[], float]]) -> List[str]:
    """The best rates of these, in turns."""
    turns = [[measure() for measure in measures] for _ in range(RATE_TURNS)]
    return [f"{max(column):,.0f}" for column in zip(*turns)]


def print_rates(folder: pathlib.Path, program: str, other: str) -> None:
    """A row for each of the sessions, and one for those with connections of this process."""
    print("| " + " | ".join(["Circuit", "Files", "MB", *map(str, WORKERS), "Rehearsed", "Other"]) + " |")
    print("|---" * (len(WORKERS) + 5) + "|")
    for place, (subject, sessions) in enumerate(RATED):
        bench = bench_of(subject, sessions, folder / f"rates{place}", program)
        measures = [functools.partial(served, bench, workers) for workers in WORKERS]
        measures += [functools.partial(rehearsed, bench, given, AT_ONCE) for given in (program, other)]
        kind = "extended" if subject.kind.kind else "direct"
        size = (bench.folder / "x.prover").stat().st_size / 1e6
        cells = [subject.name, kind, f"{size:.1f}", *best_rates(measures)]
        print("| " + " | ".join(cells) + " |", flush=True)
    bench = bench_of(RATED[0][0], RATED[0][1], folder / "scripted", program)
    scripts = scripted_bench(bench, bench.folder)
    cells = best_rates([functools.partial(scripted, bench, workers, scripts) for workers in WORKERS])
    print("| AND, scripted | direct | | " + " | ".join(cells) + " | | |")


def million_run(bench: Bench) -> List[float]:
    """Seconds until the verifier listens, of its prover, and of both from the start of the verifier."""
    blank(bench)
    start = time.perf_counter()
    service = service_of(bench, 1)
    called = time.perf_counter()
    run([bench.program, "prove", service.place(), "p0", *bench.words(), bench.outputs], bench.folder)
    ended = time.perf_counter()
    end_service(bench, service)
    return [called - start, ended - called, time.perf_counter() - start]


def print_million(folder: pathlib.Path, program: str, other: str) -> None:
    bench = bench_of(MILLION, 1, folder / "million", program)
    times: List[List[float]] = []
    for _ in range(TURNS):
        row = million_run(bench)
        for given in (program, other):
            row.append(1 / rehearsed(bench, given, 1))
        times.append(row)
    best = [min(column) for column in zip(*times)]
    print("\n| Circuit | Until it listens | `prove` | Both | Rehearsed | Other rehearsed |")
    print("|---|---|---|---|---|---|")
    print(f"| {MILLION.name} | " + " | ".join(f"{seconds:.3f}" for seconds in best) + " |")


def main() -> None:
    if len(sys.argv) != 3:
        sys.exit("serving.py PROGRAM OTHER")
    program, other = str(pathlib.Path(sys.argv[1]).resolve()), sys.argv[2]
    with tempfile.TemporaryDirectory() as name:
        try:
            print_rates(pathlib.Path(name), program, other)
            print_million(pathlib.Path(name), program, other)
        finally:
            end_all()


if __name__ == "__main__":
    main()
