#!/usr/bin/env python3
"""Measures a broker and its nodes: `broker`, `serve-node` and `prove`, over connections of this machine.

`brokering.py PROGRAM` prints two tables, of the best of three turns each.

The first has how many sessions a second there are of AND and of an adder over direct files, where 1, 2 or 4 `serve-node` have their units
of one `broker`, and as many `prove` at once call them; and of one `serve` with as many workers, by the same provers. As in `serving.py` a
session is a process of `prove`, whose start and loading of a file are in it, and the provers have copies of that file with a journal each,
which is for measuring alone. The last rows have provers that are connections of this script, so that the nodes alone are measured.

The second has how many wants a second the broker answers to nodes that are connections of this script, 1, 4 or 16 at once: of wants whose
units are leased anew, for each of which the journal is synced twice, and of wants that come again.
"""
import functools
import pathlib
import shutil
import sys
import tempfile
import time
from typing import Callable, Dict, List, NamedTuple, Tuple

from serving import RATE_TURNS, Bench, bench_of, blank, run, scripted_bench, scripted_prover, service_of, side_by_side

TOP = pathlib.Path(__file__).resolve().parent.parent
sys.path.insert(0, str(TOP / "vectors"))

from exchanges import Want  # noqa: E402
from hostile_peers import talk  # noqa: E402
from parties import DIRECT, Subject  # noqa: E402
from processes import Service, at_once, end_all  # noqa: E402
from published import ADDER, AND_GATE  # noqa: E402

NODES = [1, 2, 4]
CALLERS = [1, 4, 16]
WANTS = 400  # in a run
RATED = [(Subject("AND", AND_GATE, "11", DIRECT), 400), (Subject("64-bit adder", ADDER, "10" * 64, DIRECT), 200)]


class Fleet(NamedTuple):
    """A broker and its nodes, as they serve."""

    broker: Service
    nodes: List[Service]


def units_for(bench: Bench) -> int:
    """Units for all sessions in blocks of sixteen, and for as many more as nodes may leave."""
    sessions_in_block = max(1, 16 // bench.size)
    return 16 * (-(-bench.sessions // sessions_in_block) + 2 * max(NODES))


def fleet_bench(subject: Subject, sessions: int, folder: pathlib.Path, program: str) -> Bench:
    """Deals for so many sessions of nodes, and keeps blank journals of the nodes too."""
    bench = bench_of(subject, sessions, folder, program)
    run([program, "deal", "x", "--units", str(units_for(bench))], folder)
    for side in ("prover", "verifier"):
        shutil.copy(folder / f"x.{side}.journal", folder / f"{side}.blank")
    for number in range(max(NODES)):
        (folder / f"p{number}").unlink()
        (folder / f"p{number}").hardlink_to(folder / "x.prover")
        run([program, "node", "x.verifier", str(number)], folder)
        shutil.copy(folder / f"x.verifier.node.{number}", folder / f"node{number}.blank")
    return bench


def blank_all(bench: Bench) -> None:
    blank(bench)
    for number in range(max(NODES)):
        shutil.copy(bench.folder / f"node{number}.blank", bench.folder / f"x.verifier.node.{number}")


def fleet_of(bench: Bench, nodes: int) -> Fleet:
    """A broker, and so many nodes, which have the same number of sessions each."""
    broker = Service([bench.program], bench.folder, ["x.verifier", "--asks", "65536"], "broker")
    words = [broker.place(), "x.verifier", "circuit", bench.outputs, "--sessions", str(bench.sessions // nodes)]
    serving = [Service([bench.program], bench.folder, [*words, "--node", str(number)], "serve-node") for number in range(nodes)]
    return Fleet(broker, serving)


def end_fleet(bench: Bench, fleet: Fleet) -> None:
    """The nodes have ended, and all sessions were accepted."""
    ended = [node.end() for node in fleet.nodes]
    fleet.broker.kill()
    fleet.broker.end()
    accepted = sum(text.count("accepted\n") for text, _ in ended)
    if accepted != bench.sessions or any(status for _, status in ended):
        sys.exit(f"nodes ended with {ended}")


def prove_to(bench: Bench, services: List[Service], number: int) -> None:
    """A prover's session with the service of its row, or with the only one."""
    words = ["prove", services[number % len(services)].place(), f"p{number}", *bench.words(), bench.outputs]
    run([bench.program, *words], bench.folder)


def by_row(bench: Bench, width: int, each: Callable[[int], None]) -> None:
    """Does this for each session, as many in each row."""

    def row(number: int) -> None:
        for _ in range(bench.sessions // width):
            each(number)

    at_once([functools.partial(row, number) for number in range(width)])


def by_nodes(bench: Bench, nodes: int) -> float:
    """Sessions a second of nodes."""
    blank_all(bench)
    fleet = fleet_of(bench, nodes)
    start = time.perf_counter()
    by_row(bench, nodes, lambda number: prove_to(bench, fleet.nodes, number))
    seconds = time.perf_counter() - start
    end_fleet(bench, fleet)
    return bench.sessions / seconds


def by_workers(bench: Bench, workers: int) -> float:
    """Sessions a second of one service."""
    blank(bench)
    service = service_of(bench, workers)
    start = time.perf_counter()
    by_row(bench, workers, lambda number: prove_to(bench, [service], number))
    seconds = time.perf_counter() - start
    text, status = service.end()
    if status or text.count("accepted\n") != bench.sessions:
        sys.exit(f"serve ended with {status}: {text}")
    return bench.sessions / seconds


def scripted_by_nodes(bench: Bench, nodes: int, scripts: Dict[int, bytes]) -> float:
    """The same with provers of this process."""
    blank_all(bench)
    fleet = fleet_of(bench, nodes)
    start = time.perf_counter()
    by_row(bench, nodes, lambda number: scripted_prover(fleet.nodes[number], scripts))
    seconds = time.perf_counter() - start
    end_fleet(bench, fleet)
    return bench.sessions / seconds


def scripted_by_workers(bench: Bench, workers: int, scripts: Dict[int, bytes]) -> float:
    blank(bench)
    service = service_of(bench, workers)
    start = time.perf_counter()
    by_row(bench, workers, lambda _: scripted_prover(service, scripts))
    seconds = time.perf_counter() - start
    service.end()
    return bench.sessions / seconds


def best(measures: List[Callable[[], float]]) -> List[str]:
    """The best rates of these, in turns."""
    turns = [[measure() for measure in measures] for _ in range(RATE_TURNS)]
    return [f"{max(column):,.0f}" for column in zip(*turns)]


def print_sessions(folder: pathlib.Path, program: str) -> None:
    """A row for the nodes and for the workers, of each kind of sessions."""
    print("| Circuit | Units | By | " + " | ".join(map(str, NODES)) + " |")
    print("|---" * (len(NODES) + 3) + "|")

    def print_row(name: str, size: int, by: str, measures: List[Callable[[], float]]) -> None:
        print("| " + " | ".join([name, str(size), by, *best(measures)]) + " |", flush=True)

    for place, (subject, sessions) in enumerate(RATED):
        bench = fleet_bench(subject, sessions, folder / f"rates{place}", program)
        for by, measure in (("nodes", by_nodes), ("workers", by_workers)):
            print_row(subject.name, bench.size, by, [functools.partial(measure, bench, count) for count in NODES])
    bench = fleet_bench(RATED[0][0], RATED[0][1], folder / "scripted", program)
    scripts = scripted_bench(bench._replace(sessions=units_for(bench)), bench.folder)
    for number in range(max(NODES)):  # of the file of the known seed
        run([program, "node", "x.verifier", str(number)], bench.folder)
        shutil.copy(bench.folder / f"x.verifier.node.{number}", bench.folder / f"node{number}.blank")
    for by, scripted in (("nodes", scripted_by_nodes), ("workers", scripted_by_workers)):
        print_row("AND, scripted", bench.size, by, [functools.partial(scripted, bench, count, scripts) for count in NODES])


def answered(bench: Bench, callers: int, is_repeat: bool) -> float:
    """Wants a second, each caller's of a node of its own: of one number, which comes again and again, or of one number after another."""
    blank(bench)
    broker = Service([bench.program], bench.folder, ["x.verifier", "--asks", str(WANTS)], "broker")
    numbers = [0] * callers
    start = time.perf_counter()

    def ask(row: int) -> None:
        numbers[row] += 1
        talk(broker.address, Want(row, 1 if is_repeat else numbers[row], 1).frame(), 21)

    side_by_side(WANTS, callers, ask)
    text, status = broker.end()
    seconds = time.perf_counter() - start
    if status or text.count(" block ") != WANTS:
        sys.exit(f"broker ended with {status}: {text}")
    return WANTS / seconds


def print_wants(folder: pathlib.Path, program: str) -> None:
    """A row for wants that are leased anew, and for those that come again."""
    bench = bench_of(RATED[0][0], 16 * WANTS, folder / "wants", program)
    print("\n| Wants | " + " | ".join(map(str, CALLERS)) + " |")
    print("|---" * (len(CALLERS) + 1) + "|")
    kinds: List[Tuple[str, bool]] = [("leased anew", False), ("repeated", True)]
    for name, is_repeat in kinds:
        cells = best([functools.partial(answered, bench, callers, is_repeat) for callers in CALLERS])
        print("| " + " | ".join([name, *cells]) + " |", flush=True)


def main() -> None:
    if len(sys.argv) != 2:
        sys.exit("brokering.py PROGRAM")
    program = str(pathlib.Path(sys.argv[1]).resolve())
    with tempfile.TemporaryDirectory() as name:
        try:
            print_sessions(pathlib.Path(name), program)
            print_wants(pathlib.Path(name), program)
        finally:
            end_all()


if __name__ == "__main__":
    main()
