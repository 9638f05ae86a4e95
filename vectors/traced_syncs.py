#!/usr/bin/env python3
"""What `serve` asks of the system, in which order: a ceiling is synced before units below it are granted.

`python3 vectors/traced_syncs.py PROGRAM` runs `serve` of the built program under strace(1), with honest provers, eight at once by four
workers, over a new journal, whose ceiling rises eight times. Of the calls it takes the writes to the journal's file, its syncs,
and the sends of grants, each with the moments of its start and its end. For each grant it asks that before the send began a sync had ended,
successfully, which began after a write of a ceiling at or above the grant's end had ended: of its slot's body, and, after that one's
sync, of the gate that opens the slot.

It prints how many grants it saw, and ends with 0 only where all held. It takes a few seconds.
"""
import pathlib
import re
import subprocess
import sys
import tempfile
from typing import List, NamedTuple

from parties import Room, Subject
from processes import Service, end_all
from published import AND_GATE

UNITS, SESSIONS = 128, 128
AND = Subject("and", AND_GATE, "11")
CALL = re.compile(r"^(\d+) +(\d+\.\d+) (\w+)\((.*)\) += (-?\d+).* <(\d+\.\d+)>$")


class Call(NamedTuple):
    """A call that ended: what it was, its words, what it gave, and when it began and ended."""

    name: str
    words: str
    result: int
    began: float
    ended: float


def bytes_of(words: str) -> bytes:
    """The bytes that a call was given, which strace prints as hexadecimal escapes."""
    found = re.search(r'"((?:\\x[0-9a-f]{2})*)"', words)
    return bytes.fromhex(found.group(1).replace("\\x", "")) if found else b""


def read_trace(text: str) -> List[Call]:
    """The calls, with those that strace prints in two parts put together."""
    calls, begun = [], {}
    for line in text.splitlines():
        pid = line.split(None, 1)[0]
        if line.endswith("<unfinished ...>"):
            begun[pid] = line[: -len("<unfinished ...>")].rstrip()
            continue
        resumed = re.match(r"^(\d+) +\d+\.\d+ <\.\.\. \w+ resumed>(.*)$", line)
        if resumed:
            line = begun.pop(pid) + resumed.group(2)
        found = CALL.match(line)
        if found:
            start, took = float(found.group(2)), float(found.group(6))
            calls.append(Call(found.group(3), found.group(4), int(found.group(5)), start, start + took))
    return calls


def check(calls: List[Call], grant: Call, end: int, journal: str) -> None:
    """A sync that ended before the grant went out came after the gate and the body of a ceiling at or above the grant's end."""
    on_journal = [call for call in calls if call.words.split(", ")[0] == journal and call.ended <= grant.began]
    syncs = [call for call in on_journal if call.name in ("fsync", "fdatasync") and call.result == 0]
    writes = [call for call in on_journal if call.name == "write" and call.result > 0]
    gates = [call for call in writes if bytes_of(call.words) == b"\x5a"]
    bodies = [call for call in writes if len(bytes_of(call.words)) >= 16 and int.from_bytes(bytes_of(call.words)[:8], "little") >= end]
    assert any(
        body.ended <= first.began and first.ended <= gate.began and gate.ended <= second.began
        for body in bodies
        for first in syncs
        for gate in gates
        for second in syncs
    ), (grant, end)


def main() -> int:
    program = str(pathlib.Path(sys.argv[1]).resolve())
    with tempfile.TemporaryDirectory() as name:
        try:
            room = Room(program, pathlib.Path(name) / "room", AND, UNITS, 8)
            trace = pathlib.Path(name) / "trace"
            kinds = "trace=openat,write,fsync,fdatasync,sendto"
            traced = ["strace", "-f", "-ttt", "-T", "-xx", "-s", "256", "-e", kinds, "-o", str(trace), program]
            words = ["x.verifier", "circuit", room.outputs, "--sessions", str(SESSIONS), "--workers", "4"]
            service = Service(traced, room.folder, words)
            for _ in range(SESSIONS // 8):
                provers = [room.proving(service.place(), holder) for holder in room.holders]
                assert all(prover.end().status == 0 for prover in provers)
            assert service.end().status == 0
            calls = read_trace(trace.read_text())
        finally:
            end_all()
    hidden = "".join(f"\\x{byte:02x}" for byte in b"x.verifier.journal")
    opened = [call for call in calls if call.name == "openat" and hidden in call.words and call.result >= 0]
    assert len(opened) == 1, opened
    journal = str(opened[0].result)
    if not any(call.name == "write" and call.words.split(", ")[0] == journal for call in calls):
        sys.exit("the journal is not written by write(2)")
    grants = 0
    for call in calls:
        sent = bytes_of(call.words) if call.name in ("sendto", "write") else b""
        if len(sent) == 21 and sent[:5] == b"\x02\x10\x00\x00\x00" and call.words.split(", ")[0] != journal:
            start, count = int.from_bytes(sent[5:13], "little"), int.from_bytes(sent[13:17], "little")
            check(calls, call, start + count, journal)
            grants += 1
    assert grants == SESSIONS, grants
    print(f"{grants} grants, each after the sync of a ceiling at or above its end")
    return 0


if __name__ == "__main__":
    sys.exit(main())
