#!/usr/bin/env python3
"""Prints what public calls promise: their doc comments and contracts, as they stand in the sources.

`python3 bench/clauses.py CRATE` prints those of a crate, `python3 bench/clauses.py CRATE::CALL` and `CRATE::TYPE::CALL` one, and with no
words a line for each crate, with the names of its calls. Calls of traits are printed with the trait.
"""
import pathlib
import re
import sys
from typing import Iterator, List, NamedTuple, Set

CRATES = pathlib.Path(__file__).resolve().parent.parent / "crates"

CALL = re.compile(r"( *)(?:pub )?(?:const )?fn (\w+)")
OWNER = re.compile(r"(?:pub )?(impl|trait)\b(.*)")


class Call(NamedTuple):
    """A public call: its type or trait, its name, and the lines of its doc comment and contract."""

    owner: str
    name: str
    lines: List[str]


def exported(crate: pathlib.Path) -> Set[str]:
    """The names that a crate hands on, and those of its public modules."""
    text = (crate / "src" / "lib.rt").read_text(encoding="utf-8")
    uses = re.findall(r"^pub use ([^;]+);", text, re.MULTILINE | re.DOTALL)
    own = re.findall(r"^pub (?:struct|enum|trait|fn) (\w+)", text, re.MULTILINE)
    modules = re.findall(r"^pub mod (\w+);", text, re.MULTILINE)
    return {*re.findall(r"\w+(?!\w*::)", " ".join(uses)), *own, *(f"mod {name}" for name in modules)}


def owner_of(line: str) -> str:
    """The type that an `impl` is of, or a trait's name; nothing for the `impl` of a trait."""
    found = OWNER.match(line)
    if not found or re.search(r"\bfor\b", found[2]):
        return ""
    rest = re.sub(r"^<[^>]*(?:<[^>]*>[^>]*)*>", "", found[2]).strip()
    return re.match(r"\w*", rest)[0]


def contract(lines: List[str], start: int, indent: str) -> List[str]:
    """The lines of a call from its name on, up to its body."""
    taken: List[str] = []
    for line in lines[start:]:
        if line in (indent + "{", indent + "{}"):
            break
        taken.append(line)
        plain = not any(re.match(r" *(requires|ensures)\b", text) for text in taken)
        if line.endswith(";") or (plain and line.endswith("{")):
            break
    if taken[-1].endswith(" {"):
        taken[-1] = taken[-1][:-2]
    return [line[len(indent) :] for line in taken]


def calls_in(path: pathlib.Path, names: Set[str]) -> Iterator[Call]:
    """The public calls of a file, of a crate that hands on these names."""
    lines = path.read_text(encoding="utf-8").splitlines()
    owner, in_trait = "", False
    for number, line in enumerate(lines):
        if line.startswith("#[cfg(test)]"):
            return
        if OWNER.match(line):
            owner, in_trait = owner_of(line), "trait" in line.split("{")[0].split("<")[0]
        elif line == "}":
            owner = ""
        found = CALL.match(line)
        public = "pub fn" in line or "pub const fn" in line or (in_trait and owner)
        if not found or not public or not {owner or found[2], f"mod {path.stem}"} & names:
            continue
        first = number
        while first and lines[first - 1].strip().startswith(("///", "#[")):
            first -= 1
        doc = [text[len(found[1]) :] for text in lines[first:number] if "///" in text]
        yield Call(owner if found[1] else "", found[2], doc + contract(lines, number, found[1]))


def calls_of(crate: pathlib.Path) -> List[Call]:
    """The public calls of a crate, file by file."""
    names = exported(crate)
    return [call for path in sorted((crate / "src").rglob("*.rt")) for call in calls_in(path, names)]


def main() -> None:
    """Prints the contracts that the words name, or the list of all calls."""
    wanted = sys.argv[1].split("::") if len(sys.argv) > 1 else []
    crates = [CRATES / wanted[0]] if wanted else sorted(path.parent.parent for path in CRATES.glob("*/src/lib.rt"))
    for crate in crates:
        calls = calls_of(crate)
        if not wanted:
            print(f"{crate.name}: {', '.join(f'{call.owner}::{call.name}' if call.owner else call.name for call in calls)}")
            continue
        for call in calls:
            if all(word in (call.owner, call.name) for word in wanted[1:]):
                print("\n".join([f"// {crate.name}" + (f", {call.owner}" if call.owner else ""), *call.lines, ""]))


if __name__ == "__main__":
    main()
