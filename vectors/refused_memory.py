#!/usr/bin/env python3
"""Each allocation of a run of the built program, refused in turn: one refusal a run.

`python3 vectors/refused_memory.py PROGRAM [STEP]` compiles a small library with `cc`, which is loaded in front of the C library, counts
the calls for memory of a process, and refuses the one of a number; with STEP only each so many-th of them. The runs are: an
evaluation and a rehearsal of one AND gate, over files of both kinds; the dealing of 65,535 units; `prove` in a session with a `serve`
that has all its memory; and `serve` of two and of four sessions with as many workers, and as many `prove`. What is asked is:

  - a run that is refused ends by itself, with status 7 and the line `memory` behind what it may have written, or its output is cut;
  - a service answers each link by the whole line, or by one that names memory; a link that it did not take has no line, and then the
    status is 7; spans are apart, and below what the journal says; no prover is accepted without its claim;
  - a run may also end as if nothing was refused, where it asked for memory that it can do without: a list that may stay as long as it
    is. How many of these there were is told, by the kind of call.

It prints a row for each kind of run, and ends with 0 only where all held.
"""
import functools
import pathlib
import re
import socket
import subprocess
import sys
import tempfile
from typing import Callable, Dict, List, NamedTuple, Tuple

from endings import AND, Other, run_prove
from parties import TINY, Room, are_apart, slots_of
from processes import Process, Ran, Service, at_once, end_all

SHIM = r"""
#define _GNU_SOURCE
#include <dlfcn.h>
#include <errno.h>
#include <malloc.h>
#include <stdatomic.h>
#include <stddef.h>
#include <stdio.h>
#include <stdlib.h>
#include <string.h>
#include <sys/syscall.h>
#include <unistd.h>

static atomic_long calls;
static long refused = -1;
static const char *told;
static char kind[64] = "none";

__attribute__((constructor)) static void begin(void) {
    const char *word = getenv("REFUSED_CALL");
    told = getenv("REFUSED_TOLD");
    refused = word ? atol(word) : -1;
    atomic_store(&calls, 0);
}

__attribute__((destructor)) static void end(void) {
    long count = atomic_load(&calls);
    refused = -1;
    FILE *file = told ? fopen(told, "w") : NULL;
    if (file) { fprintf(file, "%ld %s\n", count, kind); fclose(file); }
}

/* The program ends so, and no destructor is called then. */
void _exit(int status) {
    end();
    syscall(SYS_exit_group, status);
    __builtin_unreachable();
}

static int refuse(const char *call, size_t old, size_t size) {
    if (atomic_fetch_add(&calls, 1) != refused) return 0;
    snprintf(kind, sizeof kind, "%s%s", call, old == 0 ? "" : size < old ? "-less" : "-more");
    errno = ENOMEM;
    return 1;
}

extern void *__libc_malloc(size_t);
extern void *__libc_calloc(size_t, size_t);
extern void *__libc_realloc(void *, size_t);
extern void *__libc_memalign(size_t, size_t);

void *malloc(size_t size) { return refuse("malloc", 0, size) ? NULL : __libc_malloc(size); }
void *calloc(size_t count, size_t size) { return refuse("calloc", 0, size) ? NULL : __libc_calloc(count, size); }
void *realloc(void *old, size_t size) {
    return refuse("realloc", old ? malloc_usable_size(old) : 0, size) ? NULL : __libc_realloc(old, size);
}
void *aligned_alloc(size_t align, size_t size) { return refuse("aligned_alloc", 0, size) ? NULL : __libc_memalign(align, size); }
int posix_memalign(void **to, size_t align, size_t size) {
    if (refuse("posix_memalign", 0, size)) return ENOMEM;
    *to = __libc_memalign(align, size);
    return *to ? 0 : ENOMEM;
}
"""

MEMORY = 7


class Row(NamedTuple):
    """What came of the runs of one kind: how many calls there are, and the calls without which a run ends as ever."""

    calls: int
    runs: int
    unharmed: Dict[str, int]


class Shim:
    """The library, and what it told of the last process that it stood in front of."""

    def __init__(self, folder: pathlib.Path):
        source, self.library, self.told = folder / "refuse.c", folder / "refuse.so", folder / "told"
        source.write_text(SHIM)
        subprocess.run(["cc", "-O1", "-shared", "-fPIC", "-o", str(self.library), str(source)], check=True)

    def words(self, program: str, call: int) -> List[str]:
        """The words that start the program so that this call is refused; none where it is below 0."""
        names = {"LD_PRELOAD": self.library, "REFUSED_CALL": call, "REFUSED_TOLD": self.told}
        return ["/usr/bin/env", *(f"{name}={value}" for name, value in names.items()), program]

    def last(self) -> Tuple[int, str]:
        calls, kind = self.told.read_text().split()
        return int(calls), kind


Judge = Callable[[int], bool]


def each_refused(shim: Shim, run: Judge, step: int) -> Row:
    """Refuses each call of a run: `run` says whether a run in which the call of a number is refused ended as ever."""
    assert run(-1), "a run with all its memory"
    calls, unharmed, runs = shim.last()[0], {}, 0
    for call in range(0, calls, step):
        runs += 1
        if run(call):
            kind = shim.last()[1]
            unharmed[kind] = unharmed.get(kind, 0) + 1
    return Row(calls, runs, unharmed)


def without_id(ran: Ran) -> Ran:
    """What came of a run, with one id in place of that of the files which it dealt."""
    return Ran(re.sub(r"^id [0-9a-f]{64}$", "id", ran.text, flags=re.M), ran.status)


def command(shim: Shim, program: str, folder: pathlib.Path, words: List[str]) -> Judge:
    """Runs of a command that nobody else takes part in."""
    whole = without_id(Process([program], folder, words).end())
    assert whole.status == 0, whole

    def run(call: int) -> bool:
        ran = without_id(Process(shim.words(program, call), folder, words).end())
        if ran == whole:
            return True
        is_cut = whole.text.startswith(ran.text) or ran.text.endswith("memory\n") and whole.text.startswith(ran.text[:-7])
        assert ran.status == MEMORY and is_cut, (words, call, ran)
        return False

    return run


def renew(room: Room, journals: Dict[str, bytes]) -> None:
    for name, journal in journals.items():
        room.put(name, journal)


def proving(shim: Shim, room: Room) -> Judge:
    """Runs of `prove` with an honest service that has all its memory."""
    journals = {name: room.get(name) for name in ("x.verifier.journal", "p0.journal")}

    def run(call: int) -> bool:
        renew(room, journals)
        service = room.service(1, 1)
        ran = run_prove(room, service.place(), Other(lacking=lambda program: shim.words(program[0], call)))
        if not ran.text.startswith("units"):
            meet_once(service)
        served = service.end()
        claims = slots_of(room.get("p0.journal"))
        assert claims in ([], [(0, room.size)]), (call, claims)
        assert claims or served.text != f"units 0..{room.size} accepted\n", (call, served)
        if ran == (f"units 0..{room.size} accepted\n", 0):
            return True
        assert ran.status == MEMORY and ran.text in ("memory\n", ""), (call, ran)
        return False

    return run


def meet_once(service: Service) -> None:
    """A peer that leaves at once: a service that nobody called yet waits for one."""
    try:
        socket.create_connection(service.address, timeout=5).close()
    except OSError:
        pass


def check_served(room: Room, ran: Ran, sessions: int, proved: List[Ran]) -> bool:
    """Whether a service of so many sessions ended as if it had all its memory; else what it says names memory."""
    lines = ran.text.splitlines()
    spans = [tuple(map(int, found)) for found in re.findall(r"^units (\d+)\.\.(\d+) ", ran.text, re.M)]
    assert are_apart(spans), ran
    ceilings = [a for a, _ in slots_of(room.get("x.verifier.journal"))]
    assert all(end <= max(ceilings, default=0) for _, end in spans), (ran, ceilings)
    accepted = sum(each.status == 0 for each in proved)
    assert accepted <= sum(line.endswith(" accepted") for line in lines) or ran.status == MEMORY, (ran, proved)
    if len(lines) == sessions and accepted == sessions and ran.status == 0:
        return True
    said = re.fullmatch(r"((units \d+\.\.\d+ (accepted|broken memory)|no grant memory)\n)*(memory\n)?", ran.text)
    assert ran.status == MEMORY and said, (ran, proved)
    return False


def serving(shim: Shim, room: Room, sessions: int) -> Judge:
    """Runs of `serve` of so many sessions, by as many workers, with honest provers that have all their memory."""
    journals = {name: room.get(name) for name in ["x.verifier.journal", *(f"{holder}.journal" for holder in room.holders)]}
    words = ["x.verifier", "circuit", room.outputs, "--sessions", str(sessions), "--workers", str(sessions)]

    def run(call: int) -> bool:
        renew(room, journals)
        service = Service(shim.words(room.program[0], call), room.folder, words)
        others = [Other(holder=holder) for holder in room.holders[:sessions]]
        proved = [] if service.is_over() else at_once([functools.partial(run_prove, room, service.place(), other) for other in others])
        return check_served(room, service.end(), sessions, proved)

    return run


def rows(shim: Shim, program: str, folder: pathlib.Path) -> List[Tuple[str, Judge]]:
    """What is run, and how a run is judged."""
    direct = Room(program, folder / "direct", AND, 64, 4)
    extended = Room(program, folder / "extended", AND._replace(kind=TINY), 64, 4)
    (folder / "and.txt").write_bytes(AND.text)
    alone = [
        ["eval", "and.txt", "11"],
        ["rehearse", "and.txt", "11", "--section", "1"],
        ["rehearse", "and.txt", "11", "--extended"],
        ["deal", "dealt", "--units", "65535"],
    ]
    found = [(" ".join(words), command(shim, program, folder, words)) for words in alone]
    found.append(("prove, direct", proving(shim, direct)))
    found.append(("prove, extended", proving(shim, extended)))
    for sessions in (2, 4):
        found.append((f"serve of {sessions}, direct", serving(shim, direct, sessions)))
    found.append(("serve of 2, extended", serving(shim, extended, 2)))
    return found


def main() -> int:
    program = str(pathlib.Path(sys.argv[1]).resolve())
    step = int(sys.argv[2]) if len(sys.argv) > 2 else 1
    with tempfile.TemporaryDirectory() as name:
        folder = pathlib.Path(name)
        shim, findings = Shim(folder), 0
        try:
            for what, run in rows(shim, program, folder):
                try:
                    row = each_refused(shim, run, step)
                except AssertionError as wrong:
                    findings += 1
                    print(f"{what}: {wrong}", flush=True)
                    continue
                kinds = ", ".join(f"{count} {kind}" for kind, count in sorted(row.unharmed.items())) or "none"
                print(f"{what}: {row.runs} of {row.calls} calls refused, ended as ever without: {kinds}", flush=True)
        finally:
            end_all()
    return 1 if findings else 0


if __name__ == "__main__":
    sys.exit(main())
