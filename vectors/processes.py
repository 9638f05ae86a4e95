"""Processes of the built program, which talk over connections of this machine and end in time."""
import concurrent.futures
import os
import pathlib
import socket
import subprocess
import threading
import time
from typing import Callable, List, NamedTuple, Optional, Sequence, Set, Tuple, TypeVar

Found = TypeVar("Found")

SECONDS = 60  # after which a process, or a wait for one, has failed
TRIES = 5  # how often a service is started, where another program has taken its port meanwhile

STARTED: List[subprocess.Popen] = []


def end_all() -> None:
    """Kills what was started and still runs."""
    for process in STARTED:
        process.kill()
        process.wait()


def at_once(calls: Sequence[Callable[[], Found]]) -> List[Found]:
    """What these calls give, which are made at the same time. Where one fails, all have."""
    with concurrent.futures.ThreadPoolExecutor(len(calls)) as pool:
        return [under_way.result() for under_way in [pool.submit(call) for call in calls]]


def without_writes(program: Sequence[str]) -> List[str]:
    """The words that start a program whose writes to files fail; its writes to its output do not."""
    return ["/bin/sh", "-c", 'trap "" XFSZ; ulimit -f 0; exec "$@"', "sh", *program]


def without_output(program: Sequence[str]) -> List[str]:
    """The words that start a program whose output is full."""
    return ["/bin/sh", "-c", 'exec "$@" > /dev/full', "sh", *program]


def free_address() -> Tuple[str, int]:
    with socket.socket() as probe:
        probe.bind(("127.0.0.1", 0))
        return probe.getsockname()


class Ran(NamedTuple):
    """What a process wrote, standard error with it, and its status: below 0 where a signal ended it."""

    text: str
    status: int


class Process:
    """The program, by the words that start it, as it runs on these words in a folder."""

    def __init__(self, program: Sequence[str], folder: pathlib.Path, words: Sequence[str]):
        self.words = [*program, *words]
        pipe = subprocess.PIPE
        self.process = subprocess.Popen(self.words, cwd=folder, stdout=pipe, stderr=subprocess.STDOUT)
        self.ran: Optional[Ran] = None
        STARTED.append(self.process)

    def is_over(self) -> bool:
        return self.process.poll() is not None

    def kill(self) -> None:
        self.process.kill()

    def end(self) -> Ran:
        """What came of it."""
        if self.ran is None:
            try:
                text = self.process.communicate(timeout=SECONDS)[0]
            except subprocess.TimeoutExpired:
                self.kill()
                raise SystemExit(f"{self.words} still ran after {SECONDS} seconds") from None
            self.ran = Ran(text.decode(), self.process.returncode)
        return self.ran


class Service(Process):
    """The program, as it serves: it listens, or it is over."""

    def __init__(self, program: Sequence[str], folder: pathlib.Path, words: Sequence[str], command: str = "serve"):
        for _ in range(TRIES):
            self.address = free_address()
            super().__init__(program, folder, [command, self.place(), *words])
            bound = time.monotonic() + SECONDS
            while not self.is_over() and not self.listens():
                assert time.monotonic() < bound, self.words
                time.sleep(0.0005)
            if not self.is_over() or self.end() != Ran("failed door\n", 4):
                break

    def place(self) -> str:
        return "%s:%d" % self.address

    def listens(self) -> bool:
        """Whether this process has a listener at the port, and not another one; a probe by a connection would be a peer."""
        port = f":{self.address[1]:04X}"
        rows = [row.split() for row in pathlib.Path("/proc/net/tcp").read_text().splitlines()[1:]]
        listeners = {row[9] for row in rows if row[1].endswith(port) and row[3] == "0A"}
        return bool(listeners) and not listeners.isdisjoint(self.sockets())

    def sockets(self) -> Set[str]:
        """The numbers of the sockets of this process, and of those that it started."""
        found = set()
        for pid in [self.process.pid, *self.started()]:
            try:
                for entry in os.scandir(f"/proc/{pid}/fd"):
                    target = os.readlink(entry.path)
                    if target.startswith("socket:["):
                        found.add(target[8:-1])
            except OSError:  # it has ended, or has closed one meanwhile
                continue
        return found

    def started(self) -> List[str]:
        """The processes that this one started."""
        pid = self.process.pid
        try:
            return pathlib.Path(f"/proc/{pid}/task/{pid}/children").read_text().split()
        except OSError:
            return []


class Followed(Process):
    """The program, as it serves at a port that the system chooses, and is followed: it says where it listens, or it is over."""

    def __init__(self, program: Sequence[str], folder: pathlib.Path, words: Sequence[str]):
        self.words = [*program, *words, "--follow"]
        pipe = subprocess.PIPE
        self.process = subprocess.Popen(self.words, cwd=folder, stdout=pipe, stderr=pipe)
        self.ran: Optional[Ran] = None
        STARTED.append(self.process)
        self.said: List[str] = []  # the whole lines, without their ends
        self.news = threading.Condition()
        self.hears = True
        self.hearer = threading.Thread(target=self.hear)
        self.hearer.start()

    def hear(self) -> None:
        """Takes what is said up to the end of the process; a line that is cut is none."""
        for line in self.process.stderr:
            with self.news:
                self.said += [line[:-1].decode()] * line.endswith(b"\n")
                self.news.notify_all()
        with self.news:
            self.hears = False
            self.news.notify_all()

    def address(self) -> Optional[Tuple[str, int]]:
        """Where it listens, once it says so; none where it is over before."""
        with self.news:
            self.news.wait_for(lambda: self.said or not self.hears, SECONDS)
            if not self.said:
                return None
            word, place = self.said[0].split(" ")
        assert word == "listening", self.said
        host, port = place.rsplit(":", 1)
        return host, int(port)

    def lines(self) -> List[str]:
        """What it has said of its sessions, or of its exchanges."""
        with self.news:
            return [line for line in self.said if not line.startswith(("listening ", "left "))]

    def end(self) -> Ran:
        """What came of it, without what it said to who follows it."""
        if self.ran is None:
            stop = threading.Timer(SECONDS, self.process.kill)
            stop.start()
            text = self.process.stdout.read()
            status = self.process.wait()
            if not stop.is_alive():
                raise SystemExit(f"{self.words} still ran after {SECONDS} seconds")
            stop.cancel()
            self.hearer.join()
            self.ran = Ran(text.decode(), status)
        return self.ran
