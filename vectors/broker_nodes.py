#!/usr/bin/env python3
"""One `broker` and four `serve-node` of the built program, with provers, over connections that lose, double and hold back what passes.

`python3 vectors/broker_nodes.py PROGRAM [KILLS]` deals files and makes four nodes of each. The nodes serve claims of different sizes, and
two runs of `prove` at a time call each of them. Between nodes and broker stands a proxy of this script, which by a fixed seed

  - ends a link before the want, in the middle of it, behind it, before the reply or in the middle of the reply, or resets it;
  - sends the same want over two links, and hands on the reply to the first or to the second;
  - sends an old want once more, whose reply nobody takes;
  - hands on an old reply, of the same node or of another one, in place of the one that is due; and replies that are none;
  - waits before it hands on what came.

It makes no reply of its own: who does so in a broker's place has to be kept away otherwise.

The broker and the nodes are killed at moments that are drawn too, 200 times or so often as is said, 20 times over the files of a dealing, and
started again over their journals. What is asked of all runs over a dealing, by the lines of those that ended, what killed ones had said to
who follows them, the proxy, and all journals:

  - no unit is granted by two sessions, nor claimed by two provers' sessions, nor by two nodes;
  - what a node grants lies in a block that the broker sent to it, which stands in its journal as claimed; so `status --node` says it;
  - blocks of one run of the broker follow each other from the ceiling on that its journal said, and a want that comes twice has one block;
  - a node's wants have the number of the one before, until a block of that number and node came whole, and then the next;
  - the status of each run that ends is that of its lines, and each unit that a prover claimed stands in a line of its node, but for one
    session of each killed run.

In the end all nodes of a dealing serve once more with nothing lost; and last, four nodes of a small file until the broker has no units left.
The script prints what there was, with how many of the leased units no session was granted, and ends with 0 only where all held. It stops to
kill after two minutes, and takes less than three.
"""
import functools
import pathlib
import random
import re
import socket
import sys
import tempfile
import threading
import time
from typing import Callable, Dict, List, NamedTuple, Optional, Set, Tuple

from ends import first_bad, payload_length
from exchanges import REPLY, Block, Out, Reply, Want, reply_in, rounded, want_in
from hostile_peers import reset
from parties import TINY, Room, Span, Subject, are_apart, slots_of
from processes import SECONDS, Followed, Process, Ran, at_once, end_all
from published import AND_GATE, FIVE_GATES

SEED = "broker and nodes"
KILLS, SITE_KILLS = 200, 20
KILLED = -9
MINUTES = 2.0
HOLDERS = 2  # of the prover's file, for each node
TOTAL, LAST_TOTAL = 1500, 200
RESERVE, LAST_USE = 400, 200  # units at which no more are asked for, and those that the end takes at most
PATIENCE = "5"

# What each node serves: sessions of 2, 4, 5 and 21 units over files with two correlations a unit.
SUBJECTS = [
    Subject("gate", AND_GATE, "11", TINY),
    Subject("gates", FIVE_GATES, "1101", TINY),
    Subject("nine inputs", b"0 9\n1 9\n1 1\n", "1" * 9, TINY),
    Subject("forty inputs", b"0 40\n1 40\n1 1\n", "10" * 20, TINY),
]


class Trouble(Exception):
    """What was found that must not be."""


class Clock:
    """Until when kills are made, and how many there are still to be."""

    def __init__(self, kills: int, until: float):
        self.lock = threading.Lock()
        self.left, self.made, self.until = kills, 0, until

    def is_over(self) -> bool:
        return self.left <= 0 or time.monotonic() > self.until

    def kill(self, process: Process) -> None:
        """Kills a process; whether it still ran then is said by its status."""
        process.kill()

    def count(self, ran: Ran) -> None:
        if ran.status == KILLED:
            with self.lock:
                self.left, self.made = self.left - 1, self.made + 1


# ---- the links between nodes and broker


# What may become of a link, and how often.
WAYS = {
    "as it is": 30,
    "ended at once": 2,
    "want cut": 3,
    "ended behind the want": 4,
    "ended before the reply": 5,
    "reply cut": 4,
    "reset": 2,
    "doubled": 6,
    "doubled at once": 4,
    "old want first": 3,
    "old want behind": 3,
    "old reply of the node": 4,
    "old reply of another": 4,
    "no reply": 2,
}


class Seen(NamedTuple):
    """What passed: the wants that went on to the broker, whole ones, and the replies that came of it."""

    wants: List[Want]
    replies: List[Reply]


class Proxy:
    """Who stands between nodes and the broker: it takes the links of the nodes at one address, and calls the broker where that listens."""

    def __init__(self, ways: Dict[str, int]):
        self.ways = ways
        self.broker: Optional[Tuple[str, int]] = None
        self.seen = Seen([], [])
        self.lock = threading.Lock()
        self.draws = 0
        self.pending: Dict[int, Tuple[int, int]] = {}  # of each node the draw of its newest want, and the number that the next one has
        self.troubles: List[str] = []
        self.listener = socket.create_server(("127.0.0.1", 0), backlog=256)
        self.threads: List[threading.Thread] = []
        self.is_open = True
        self.taker = threading.Thread(target=self.take_links)
        self.taker.start()

    def place(self) -> str:
        return "%s:%d" % self.listener.getsockname()

    def close(self) -> None:
        """Takes no more links, and waits until all have ended."""
        self.is_open = False
        with socket.create_connection(self.listener.getsockname(), timeout=SECONDS):
            self.taker.join()
        self.listener.close()
        for thread in self.threads:
            thread.join()

    def take_links(self) -> None:
        while self.is_open:
            stream = self.listener.accept()[0]
            stream.settimeout(SECONDS)
            self.draws += 1
            self.threads = [thread for thread in self.threads if thread.is_alive()]
            self.threads.append(threading.Thread(target=self.pass_link, args=(stream, self.draws)))
            self.threads[-1].start()

    def pass_link(self, stream: socket.socket, number: int) -> None:
        """Does with a link what is drawn. A stream that breaks on either side ends both."""
        draw = random.Random(f"{SEED} {number}")
        [way] = draw.choices(list(self.ways), weights=list(self.ways.values()))
        with stream:
            try:
                self.pass_so(stream, way, number, draw)
            except OSError:
                pass
            except Trouble as trouble:
                self.troubles.append(f"{way}: {trouble}")

    def meet_want(self, want: Want, link: int) -> None:
        """A node's want has the number of the one before, or the next one once its block was taken; or it was started anew. Its links come one
        after another."""
        with self.lock:
            newest, due = self.pending.get(want.node, (0, 1))
            if link < newest:  # of a node that was killed meanwhile
                return
            self.pending[want.node] = link, want.number
        if want.number not in (1, due):
            raise Trouble(f"{want}, and {due} is due")

    def reply_to(self, node: socket.socket, want: Want, link: int, reply: Reply) -> None:
        """Hands on a whole reply. A block of the node and of its number is taken, and then the next number is due."""
        with self.lock:
            is_own = isinstance(reply, Block) and (reply.node, reply.number) == (want.node, want.number)
            if self.pending[want.node][0] == link:
                self.pending[want.node] = link, want.number + is_own
        node.sendall(reply.frame())

    def pass_so(self, node: socket.socket, way: str, link: int, draw: random.Random) -> None:
        if way == "ended at once":
            return
        sent = taken(node, 21)
        if len(sent) < 21:
            return
        want = want_in(sent)
        self.meet_want(want, link)
        pause(draw)
        if way == "reset":
            reset(node)
        elif way == "no reply":
            node.sendall(draw.choice([sent, b"\2" + bytes(20), bytes([12, 24, 0, 0, 1]), bytes([13, 0]), bytes([draw.randrange(12)]), b"\xff"]))
        elif way.startswith("old reply"):
            old = self.old_reply(want.node, way.endswith("the node"), draw)
            if old is not None:
                self.reply_to(node, want, link, old)
        elif way == "want cut":
            self.give_up(sent[: draw.randrange(21)], draw)
        elif way == "ended behind the want":
            self.note_want(want)
            self.give_up(sent, draw)
        else:
            self.hand_on(node, way, want, link, draw)

    def hand_on(self, node: socket.socket, way: str, want: Want, link: int, draw: random.Random) -> None:
        """Sends the want to the broker, once or more often, and hands on a reply, a part of it, or nothing."""
        if way == "old want first":
            self.repeat_old(draw)
        calls = [functools.partial(self.exchange, want)] * (2 if way.startswith("doubled") else 1)
        came = at_once(calls) if way == "doubled at once" else [call() for call in calls]
        if way == "old want behind":
            self.repeat_old(draw)
        reply = draw.choice(came)
        if reply is None or way == "ended before the reply":
            return
        pause(draw)
        if way == "reply cut":
            node.sendall(reply.frame()[: draw.randrange(1, len(reply.frame()))])
        else:
            self.reply_to(node, want, link, reply)

    def note_want(self, want: Want) -> None:
        with self.lock:
            self.seen.wants.append(want)

    def repeat_old(self, draw: random.Random) -> None:
        """Sends an old want, whose reply goes nowhere."""
        with self.lock:
            old = draw.choice(self.seen.wants) if self.seen.wants else None
        if old is not None:
            self.exchange(old)

    def old_reply(self, node: int, same: bool, draw: random.Random) -> Optional[Reply]:
        with self.lock:
            old = [reply for reply in self.seen.replies if (reply.node == node) == same]
        return draw.choice(old) if old else None

    def call(self) -> Optional[socket.socket]:
        """A link to the broker, or none where nobody listens there for half a second."""
        until = time.monotonic() + 0.5
        while time.monotonic() < until:
            address = self.broker
            if address is not None:
                try:
                    return socket.create_connection(address, timeout=SECONDS)
                except OSError:
                    pass
            time.sleep(0.005)
        return None

    def give_up(self, sent: bytes, draw: random.Random) -> None:
        """Sends these bytes to the broker, and is gone."""
        broker = self.call()
        if broker is not None:
            broker.sendall(sent)
            if draw.random() < 0.3:
                reset(broker)
            broker.close()

    def exchange(self, want: Want) -> Optional[Reply]:
        """The broker's whole reply, if it comes: it is one to this want."""
        broker = self.call()
        if broker is None:
            return None
        self.note_want(want)
        with broker:
            try:
                broker.sendall(want.frame())
                data = taken(broker, 5)
                wanted = 5 + payload_length(REPLY.get(data[0], [])) if data else 0
                data += taken(broker, wanted - len(data))
            except OSError:  # it was killed
                return None
        if data and first_bad(REPLY, data) is not None:
            raise Trouble(f"the broker sent {data.hex()}")
        if not data or len(data) < wanted:
            return None
        reply = reply_in(data)
        with self.lock:
            self.seen.replies.append(reply)
        self.check(want, reply)
        return reply

    def check(self, want: Want, reply: Reply) -> None:
        """A reply is to its want, and a block has enough units: of a want that came before, with another count, the first had."""
        if (reply.node, reply.number) != (want.node, want.number):
            raise Trouble(f"{reply} for {want}")
        if isinstance(reply, Block) and reply.count != rounded(want.count):
            raise Trouble(f"{reply} for {want}")


def taken(stream: socket.socket, count: int) -> bytes:
    """So many bytes, or fewer where the stream ends before."""
    data = b""
    while len(data) < count and (piece := stream.recv(count - len(data))):
        data += piece
    return data


def pause(draw: random.Random) -> None:
    """A short wait, now and then a longer one."""
    kind = draw.random()
    if kind < 0.3:
        time.sleep(draw.uniform(0, 0.02) if kind < 0.27 else draw.uniform(0.02, 0.3))


# ---- what is run


class Site(Room):
    """A folder with the files of the broker, of four nodes and of their provers, which the program deals; and the proxy between them."""

    def __init__(self, program: str, folder: pathlib.Path, total: int, ways: Dict[str, int]):
        super().__init__(program, folder, SUBJECTS[0], total, HOLDERS * len(SUBJECTS))
        self.proxy = Proxy(ways)
        self.jobs = [subject.job(total) for subject in SUBJECTS]
        for node, subject in enumerate(SUBJECTS):
            self.put(f"circuit{node}", subject.text)
            made = self.run("node", "x.verifier", str(node))
            assert made == (f"node {node}\n", 0), made
        self.addresses: List[Optional[Tuple[str, int]]] = [None] * len(SUBJECTS)
        began = time.monotonic()
        self.run("status", "x.prover")
        self.pace = 1.2 + 4 * (time.monotonic() - began)  # in which a prover starts and a session is led

    def deal(self) -> None:
        made = self.run("deal", "x", "--units", str(self.total), "--trees", "1", "--height", "1", "--base", "10")
        assert made.status == 0, made

    def holder(self, node: int, number: int) -> str:
        return self.holders[HOLDERS * node + number]

    def broker(self, asks: int) -> Followed:
        return Followed(self.program, self.folder, ["broker", "127.0.0.1:0", "x.verifier", "--asks", str(asks), "--timeout", PATIENCE])

    def node(self, node: int, sessions: int) -> Followed:
        words = ["serve-node", "127.0.0.1:0", self.proxy.place(), "x.verifier", f"circuit{node}", SUBJECTS[node].outputs()]
        return Followed(self.program, self.folder, [*words, "--node", str(node), "--sessions", str(sessions), "--timeout", PATIENCE])

    def prove(self, node: int, number: int) -> Optional[Ran]:
        """A run of a node's prover, where the node listens."""
        address, subject = self.addresses[node], SUBJECTS[node]
        if address is None:
            return None
        words = ["prove", "%s:%d" % address, self.holder(node, number), f"circuit{node}", subject.private(), subject.outputs()]
        return Process(self.program, self.folder, [*words, "--timeout", PATIENCE]).end()

    def is_spent(self) -> bool:
        """Whether the units are as good as leased."""
        with self.proxy.lock:
            last = max((reply.start + reply.count for reply in self.proxy.seen.replies if isinstance(reply, Block)), default=0)
        return last > self.total - RESERVE

    def node_claims(self, node: int) -> List[Span]:
        """What the journal of a node says."""
        return slots_of(self.get(f"x.verifier.node.{node}"))


class BrokerRun(NamedTuple):
    """A run of the broker: the ceiling before and after it, its lines, as far as they are known, and what came of it."""

    before: int
    after: int
    lines: List[str]
    ran: Ran


class NodeRun(NamedTuple):
    """A run of a node: its lines, as far as they are known, and what came of it."""

    node: int
    lines: List[str]
    ran: Ran


class Proof(NamedTuple):
    """A run of a node's prover."""

    node: int
    ran: Ran


def lines_of(process: Followed) -> List[str]:
    """The lines of a process that has ended: what it said as it went, which are those that it wrote in the end, if it wrote."""
    ran, said = process.end(), process.lines()
    if ran.status != KILLED and sorted(ran.text.splitlines()) != sorted(said):
        raise Trouble(f"{process.words} said {said} and wrote {ran}")
    return said


def wait(process: Followed, seconds: float) -> None:
    """Waits until the process is over, or so many seconds."""
    until = time.monotonic() + seconds
    while not process.is_over() and time.monotonic() < until:
        time.sleep(0.002)


def run_to_stop(site: Site, process: Followed, journal: str, draw: random.Random, clock: Clock) -> None:
    """Kills a process at a drawn moment, half of the times soon after its journal was written; or lets it end, if it does in time."""
    kind, file = draw.random(), site.folder / journal
    before, until = file.stat().st_mtime_ns, time.monotonic() + 2 * site.pace
    if kind < 0.15:
        wait(process, 3 * site.pace)
    elif kind < 0.5:
        wait(process, draw.choice([draw.uniform(0, 0.1), draw.uniform(0, site.pace), draw.uniform(0, site.pace)]))
    else:
        while file.stat().st_mtime_ns == before and not process.is_over() and time.monotonic() < until:
            time.sleep(0.001)
        wait(process, draw.choice([0, 0.001, draw.uniform(0, 0.05), draw.uniform(0, site.pace)]))
    clock.kill(process)
    process.end()
    clock.count(process.end())


def keep_broker(site: Site, clock: Clock, draw: random.Random) -> List[BrokerRun]:
    """Runs of the broker, one after another."""
    runs = []
    while not (clock.is_over() or site.is_spent()):
        before = site.ceiling()
        process = site.broker(draw.choice([1, 3, draw.randrange(5, 60), 1000]))
        site.proxy.broker = process.address()
        run_to_stop(site, process, "x.verifier.journal", draw, clock)
        site.proxy.broker = None
        runs.append(BrokerRun(before, site.ceiling(), lines_of(process), process.end()))
    return runs


def keep_node(site: Site, node: int, clock: Clock, draw: random.Random) -> List[NodeRun]:
    """Runs of a node, one after another."""
    runs = []
    while not (clock.is_over() or site.is_spent()):
        process = site.node(node, draw.choice([1, 2, draw.randrange(3, 30), 1000]))
        site.addresses[node] = process.address()
        run_to_stop(site, process, f"x.verifier.node.{node}", draw, clock)
        site.addresses[node] = None
        runs.append(NodeRun(node, lines_of(process), process.end()))
    return runs


def keep_proving(site: Site, node: int, number: int, clock: Clock) -> List[Proof]:
    """Runs of a node's prover, one after another."""
    proofs = []
    while not (clock.is_over() or site.is_spent()):
        ran = site.prove(node, number)
        if ran is not None:
            proofs.append(Proof(node, ran))
        time.sleep(0.02 * SUBJECTS[node].size())
    return proofs


class Stage(NamedTuple):
    """All that was run over one site."""

    site: Site
    brokers: List[BrokerRun]
    nodes: List[NodeRun]
    proofs: List[Proof]


def kill_and_start(site: Site, clock: Clock) -> Stage:
    """All of them at the same time, until enough were killed."""
    stage = Stage(site, [], [], [])
    calls: List[Callable[[], None]] = [lambda: stage.brokers.extend(keep_broker(site, clock, random.Random(f"{SEED} b")))]
    for node in range(len(SUBJECTS)):
        draw = random.Random(f"{SEED} n{node}")
        calls.append(functools.partial(lambda node, draw: stage.nodes.extend(keep_node(site, node, clock, draw)), node, draw))
        for number in range(HOLDERS):
            calls.append(functools.partial(lambda node, number: stage.proofs.extend(keep_proving(site, node, number, clock)), node, number))
    at_once(calls)
    return stage


def serve_on(stage: Stage, sessions: int) -> None:
    """The broker and each node once, with so many sessions, one after another; the broker is killed once all have ended."""
    site = stage.site
    before = site.ceiling()
    broker = site.broker(65536)
    site.proxy.broker = broker.address()

    def serve(node: int) -> Tuple[NodeRun, List[Proof]]:
        process = site.node(node, sessions)
        site.addresses[node] = process.address()
        proofs = [Proof(node, site.prove(node, place % HOLDERS) or Ran("", 0)) for place in range(sessions)]
        process.end()
        site.addresses[node] = None
        return NodeRun(node, lines_of(process), process.end()), proofs

    for run, proofs in at_once([functools.partial(serve, node) for node in range(len(SUBJECTS))]):
        stage.nodes.append(run)
        stage.proofs.extend(proofs)
    site.proxy.broker = None
    broker.kill()
    broker.end()
    stage.brokers.append(BrokerRun(before, site.ceiling(), lines_of(broker), broker.end()))


# ---- what is asked of it


NODE_LINE = re.compile(r"units (\d+)\.\.(\d+) (accepted|broken (?:link|ended \d+))|no grant (link|ended \d+|broker|block 64)")
BROKER_LINE = re.compile(r"want (\d+) (\d+) (?:block (\d+)\.\.(\d+)|out (\d+))|no want (link|ended \d+)")

# What a prover may say whose node is killed, has too few units or does not get its broker.
PROVER_LINE = re.compile(r"units (\d+)\.\.(\d+) accepted|peer ended \d+|peer refused 3|failed link|failed door")


def granted_in(run: NodeRun) -> List[Span]:
    """The units that a node's lines say, and that its status is that of its lines."""
    spans, statuses = [], [0]
    for line in run.lines:
        found = NODE_LINE.fullmatch(line)
        if found is None:
            raise Trouble(f"node {run.node} says {line}")
        if found[1] is not None:
            spans.append((int(found[1]), int(found[2])))
        words = found[3] or found[4]
        statuses.append(0 if words == "accepted" else 4 if "link" in words or words == "broker" else 1)
    if run.ran.status not in (KILLED, max(statuses)) or run.ran.status != KILLED and not run.ran.text:
        raise Trouble(f"{run} has the status {run.ran.status}")
    return spans


class Answered(NamedTuple):
    """What a run of the broker answered, in order: node and number, and the units or the place at which none were left."""

    node: int
    number: int
    span: Optional[Span]
    out: Optional[int]


def answered_in(run: BrokerRun) -> List[Answered]:
    """What a broker's lines say, and that its status is that of its lines."""
    found, statuses = [], [0]
    for line in run.lines:
        words = BROKER_LINE.fullmatch(line)
        if words is None:
            raise Trouble(f"the broker says {line}")
        if words[1] is not None:
            span = None if words[3] is None else (int(words[3]), int(words[4]))
            found.append(Answered(int(words[1]), int(words[2]), span, None if span else int(words[5])))
        statuses.append(4 if words[6] == "link" else 1 if words[6] else 6 if words[5] else 0)
    status = next(each for each in (6, 4, 1, 0) if each in statuses)
    if run.ran.status not in (KILLED, status):
        raise Trouble(f"{run} and {status} is due")
    return found


def check_broker(run: BrokerRun) -> Set[Tuple[int, Span]]:
    """The blocks of a run, with their nodes. They follow each other from the ceiling that was found on, but for repeats of a node's last one,
    and where some did not go out; after an Out there are no new ones, and all Outs are at one place."""
    last: Dict[int, Tuple[int, Span]] = {}
    spans: List[Span] = []
    end, outs, blocks = run.before, set(), set()
    loses = "no want link" in run.lines
    for each in answered_in(run):
        if each.span is None:
            outs.add(each.out)
            continue
        blocks.add((each.node, each.span))
        if last.get(each.node, (0, each.span))[0] == each.number:
            if last[each.node][1] != each.span:
                raise Trouble(f"{each} behind {last[each.node]}")
            continue
        if each.span[0] != end and not loses or outs and not loses:
            raise Trouble(f"{each} where blocks end at {end} and outs are {outs}, of {run}")
        end, last[each.node] = max(end, each.span[1]), (each.number, each.span)
        spans.append(each.span)
    if len(outs) > 1 or not are_apart(spans) or any(start < run.before for start, _ in spans) or run.after < end:
        raise Trouble(f"{spans} and {outs} of {run}")
    return blocks


def lies_in(span: Span, spans: Set[Span]) -> bool:
    return any(start <= span[0] and span[1] <= end for start, end in spans)


class Count(NamedTuple):
    """What there was over one site."""

    sessions: int
    accepted: int
    wants: int
    blocks: int
    outs: int
    leased: int
    granted: int


def check_provers(stage: Stage, node: int, granted: List[Span]) -> List[Span]:
    """The claims of a node's provers: what an accepted one says is among them, and a killed run of the node left one unsaid at most."""
    site = stage.site
    claims = [claim for number in range(HOLDERS) for claim in site.claims(site.holder(node, number))]
    for proof in (proof for proof in stage.proofs if proof.node == node):
        found = PROVER_LINE.fullmatch(proof.ran.text[:-1])
        if found is None:
            raise Trouble(f"a prover of node {node} says {proof.ran}")
        if found[1] is not None and (int(found[1]), int(found[2])) not in claims:
            raise Trouble(f"a prover of node {node} says {found[0]}, and has not claimed it")
    killed = sum(run.node == node and run.ran.status == KILLED for run in stage.nodes)
    unsaid = set(claims) - set(granted)
    if len(unsaid) > killed:
        raise Trouble(f"{killed} runs of node {node} were killed, and no line says {unsaid}")
    size = SUBJECTS[node].size()
    if any(end - start != size for start, end in claims + granted):
        raise Trouble(f"node {node} granted other than {size} units")
    return claims


def check_node(stage: Stage, node: int, blocks: Set[Tuple[int, Span]]) -> Tuple[List[Span], List[Span]]:
    """What a node granted in all its runs, and what it claimed."""
    site = stage.site
    said = [span for run in stage.nodes if run.node == node for span in granted_in(run)]
    if not are_apart(said):
        raise Trouble(f"node {node} granted a unit twice: {said}")
    proved = check_provers(stage, node, said)
    granted = sorted(set(said) | set(proved))
    claimed = site.node_claims(node)
    own = {span for owner, span in blocks if owner == node}
    strange = [span for span in claimed if span not in own]
    if strange:
        raise Trouble(f"node {node} claimed {strange}, which the broker did not send to it")
    loose = [span for span in granted if not lies_in(span, set(claimed))]
    if loose:
        raise Trouble(f"node {node} granted {loose}, which it has not claimed")
    if not are_apart(granted):
        raise Trouble(f"a unit of node {node} is granted twice")
    status = site.run("status", "x.verifier", "--node", str(node))
    used = sum(end - start for start, end in claimed)
    if status.text.splitlines()[2:] != [f"used {used} left {site.total - used}"] or status.status != 0:
        raise Trouble(f"status of node {node}: {status}, and {used} units are claimed")
    return granted, claimed


def check_stage(stage: Stage) -> Count:
    """That all of them say the same, and that no unit was granted twice."""
    site = stage.site
    if site.proxy.troubles:
        raise Trouble("; ".join(site.proxy.troubles[:3]))
    seen = site.proxy.seen
    blocks = {(reply.node, reply.span()) for reply in seen.replies if isinstance(reply, Block)}
    for run in stage.brokers:
        blocks |= check_broker(run)
    if not are_apart([span for _, span in blocks]):
        raise Trouble("a unit stands in two blocks")
    found = [check_node(stage, node, blocks) for node in range(len(SUBJECTS))]
    granted = [span for spans, _ in found for span in spans]
    claimed = [span for _, spans in found for span in spans]
    if not are_apart(granted) or not are_apart(claimed):
        raise Trouble("a unit is granted or claimed by two nodes")
    if any(end > site.ceiling() for _, end in granted + claimed + [span for _, span in blocks]):
        raise Trouble("a block ends above the ceiling")
    accepted = sum(line.endswith("accepted") for run in stage.nodes for line in run.lines)
    sessions = sum(len(run.lines) for run in stage.nodes)
    outs = sum(isinstance(reply, Out) for reply in seen.replies)
    units = sum(end - start for start, end in granted)
    return Count(max(sessions, len(granted)), accepted, len(seen.wants), len(blocks), outs, site.ceiling(), units)


def check_kills(program: str, folder: pathlib.Path, clock: Clock) -> Tuple[Count, int]:
    """A site in which processes are killed: what there was, and how many kills of the broker."""
    site = Site(program, folder, TOTAL, WAYS)
    try:
        stage = kill_and_start(site, clock)
        brokers = sum(run.ran.status == KILLED for run in stage.brokers)
        site.proxy.ways = {"as it is": 1}
        if site.ceiling() + LAST_USE <= site.total:
            serve_on(stage, 2)
            for run in stage.nodes[-len(SUBJECTS) :]:
                if [line.split(" ")[-1] for line in run.lines] != ["accepted"] * 2:
                    raise Trouble(f"in the end a node says {run}")
    finally:
        site.proxy.close()
    return check_stage(stage), brokers


def check_last(program: str, folder: pathlib.Path) -> Count:
    """The site whose units come to their end: each node is refused, and what is left of its block burnt."""
    site = Site(program, folder / "last", LAST_TOTAL, {"as it is": 1})
    try:
        stage = Stage(site, [], [], [])
        while sum("no grant block 64" in run.lines for run in stage.nodes[-len(SUBJECTS) :]) < len(SUBJECTS):
            serve_on(stage, 3)
    finally:
        site.proxy.close()
    return check_stage(stage)


def main() -> int:
    program = str(pathlib.Path(sys.argv[1]).resolve())
    kills = int(sys.argv[2]) if len(sys.argv) > 2 else KILLS
    until = time.monotonic() + 60 * MINUTES
    counts: List[Count] = []
    killed = brokers = 0
    with tempfile.TemporaryDirectory() as name:
        try:
            while killed < kills and time.monotonic() < until:
                clock = Clock(min(SITE_KILLS, kills - killed), until)
                count, of_broker = check_kills(program, pathlib.Path(name) / f"site{len(counts)}", clock)
                counts.append(count)
                killed, brokers = killed + clock.made, brokers + of_broker
            counts.append(check_last(program, pathlib.Path(name)))
        except Trouble as trouble:
            print(f"found: {trouble}")
            return 1
        finally:
            end_all()
    all_of = Count(*map(sum, zip(*counts)))
    burnt = 100 * (all_of.leased - all_of.granted) / all_of.leased
    print(f"{all_of.sessions} sessions of four nodes, {all_of.accepted} accepted, {killed} kills, {brokers} of them of the broker")
    print(f"{all_of.wants} wants, {all_of.blocks} blocks, {all_of.outs} outs; {all_of.leased} units leased, {burnt:.0f} in 100 of them burnt")
    print("no unit granted twice")
    return 0


if __name__ == "__main__":
    sys.exit(main())
