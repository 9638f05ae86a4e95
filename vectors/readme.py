#!/usr/bin/env python3
"""Runs the command lines that README.md shows, and compares what they print with what it shows.

`python3 vectors/readme.py PROGRAM` takes the indented blocks of README.md in their order. A block with a line that begins as a command is
one of command lines; the block right below it is what the last of them prints. They run in a temporary folder, which has `examples`
and `vectors` of the repository in it:

  - `./zk` and `crates/zk/out/zk` are PROGRAM, `/tmp/` is the folder, and a variable that a line sets is there for the lines after it;
  - a service (`serve`, `serve-many`, `serve-arith`) runs in the background, at a free port of this machine that later lines name too, until
    its block has ended. It prints what the block's last command prints;
  - a command whose output is not shown ends with 0, or with the status that stands behind it, as in `# status 1`;
  - how many runs were killed, as `41 of 104 services`, is left open: another run kills others;
  - lines that need the kit (`rt`, `.ci/run`) are named and not run.

It prints one line a command, and ends with 0 only where each is as README.md shows it. It takes about two minutes, nearly all of them
for `vectors/two_parties.py`.
"""
import pathlib
import re
import shlex
import subprocess
import sys
import tempfile
from typing import Dict, Iterator, List, NamedTuple, Optional

from processes import Process, Ran, Service, end_all
from published import TOP

SECONDS = 900  # after which a command has failed
SERVICES = ("serve", "serve-many", "serve-arith")
COMMAND = re.compile(r"(\./zk|rt|cd|echo|printf|python3|\.ci/run|\w+=\S+)( |$)")
KIT = re.compile(r"(^|&& *)(rt|\.ci/run)( |$)")
KILLED = re.compile(r"\d+ of \d+ (services|provers)")


class Example(NamedTuple):
    """Command lines, and what the last one prints, if that is shown."""

    lines: List[str]
    shown: Optional[str]


class Outcome(NamedTuple):
    """A command line, what is wrong with it, if anything is, and whether it was run."""

    line: str
    fault: str = ""
    is_run: bool = True

    def said(self) -> str:
        if not self.is_run:
            return f"not run:  {self.line}"
        return f"differs:  {self.line}\n{self.fault}" if self.fault else f"as shown: {self.line}"


def blocks(text: str) -> Iterator[List[str]]:
    """The blocks of indented lines, in order, and an empty one for each line of text between them."""
    block: List[str] = []
    for line in [*text.splitlines(), "", "end"]:
        if line.startswith("    "):
            block.append(line[4:])
            continue
        if block:
            yield block
            block = []
        if line:
            yield []


def examples(text: str) -> List[Example]:
    """The command lines that a text shows, block by block."""
    found: List[Example] = []
    below = False  # whether the block before was one of command lines
    for block in blocks(text):
        is_commands = any(COMMAND.match(line) for line in block)
        if is_commands:
            found.append(Example(block, None))
        elif block and below:
            found[-1] = found[-1]._replace(shown="\n".join(block) + "\n")
        below = is_commands
    return found


def status_of(line: str) -> int:
    """The status that stands behind a command, or 0."""
    said = re.search(r"#.*\bstatus (\d+)", line)
    return int(said.group(1)) if said else 0


def differs(ran: Ran, shown: Optional[str], status: int) -> str:
    """In what a run is not as it is shown, if in anything."""
    if ran.status != status:
        return f"its status is {ran.status}, not {status}, and it prints:\n{ran.text}"
    if shown is not None and KILLED.sub(r".. \1", ran.text) != KILLED.sub(r".. \1", shown):
        return f"it prints:\n{ran.text}README.md shows:\n{shown}"
    return ""


class Shell:
    """A folder in which command lines run one after another, and what they are told of those before."""

    def __init__(self, program: str, folder: pathlib.Path):
        self.program, self.folder = program, folder
        self.set: List[str] = []
        self.moved: Dict[str, str] = {"./zk": shlex.quote(program), "crates/zk/out/zk": shlex.quote(program), "/tmp": str(folder)}
        for name in ("examples", "vectors"):
            (folder / name).symlink_to(TOP / name)

    def read(self, line: str) -> str:
        """The line, with the program, the folder and the addresses of this run in it, each where a word begins."""
        olds = "|".join(re.escape(old) for old in self.moved)
        return re.sub(rf"(?<![\w.])({olds})(?![\w.])", lambda old: self.moved[old.group()], line)

    def run(self, line: str) -> Ran:
        """Runs a line to its end."""
        script = "\n".join([*self.set, self.read(line)])
        try:
            ran = subprocess.run(["/bin/sh", "-c", script], cwd=self.folder, stdout=subprocess.PIPE, stderr=subprocess.STDOUT, timeout=SECONDS)
        except subprocess.TimeoutExpired:
            raise SystemExit(f"{line} still ran after {SECONDS} seconds") from None
        if re.match(r"\w+=", line):
            self.set.append(self.read(line))
        return Ran(ran.stdout.decode(), ran.returncode)

    def start(self, line: str) -> Process:
        """Starts a service, at a free port in place of its own."""
        _, command, address, *words = shlex.split(self.read(line), comments=True)
        service = Service([self.program], self.folder, words, command)
        self.moved[address] = service.place()
        return service


def is_service(line: str) -> bool:
    words = shlex.split(line, comments=True)
    return words[:1] == ["./zk"] and words[1:2] != [] and words[1] in SERVICES


def run_example(shell: Shell, example: Example) -> Iterator[Outcome]:
    """Runs command lines in order; services end last, once those who call them have. Where a call went wrong they are not waited for."""
    services: Dict[str, Process] = {}
    wrong = False
    for line in example.lines:
        if KIT.search(line):
            yield Outcome(line, is_run=False)
        elif is_service(line):
            services[line] = shell.start(line)
        else:
            shown = example.shown if line == example.lines[-1] else None
            fault = differs(shell.run(line), shown, status_of(line))
            wrong = wrong or fault != ""
            yield Outcome(line, fault)
    for line, service in services.items():
        if wrong:
            service.kill()
        yield Outcome(line, differs(service.end(), example.shown, status_of(line)))


def run_all(program: str, found: List[Example]) -> List[Outcome]:
    """Runs all, and says of each how it went."""
    outcomes: List[Outcome] = []
    with tempfile.TemporaryDirectory() as name:
        shell = Shell(program, pathlib.Path(name))
        try:
            for example in found:
                for outcome in run_example(shell, example):
                    print(outcome.said(), flush=True)
                    outcomes.append(outcome)
        finally:
            end_all()
    return outcomes


def main() -> int:
    program = str(pathlib.Path(sys.argv[1]).resolve())
    outcomes = run_all(program, examples((TOP / "README.md").read_text()))
    wrong = sum(outcome.fault != "" for outcome in outcomes)
    held = sum(outcome.is_run for outcome in outcomes) - wrong
    print(f"{held} commands are as README shows them" + (f", {wrong} are not" if wrong else ""))
    return 1 if wrong or not held else 0


if __name__ == "__main__":
    sys.exit(main())
