#!/usr/bin/env python3
"""Counts the definitions that one has to believe for the headline, and their lines without comments and blank lines.

`python3 bench/definitions.py` begins with what the clauses `headline`, `once` and `disk` of `run_zk` name, and follows every name to the
`specs` that define it; `python3 bench/definitions.py MODULE.NAME ..` begins with other names. Data types that code
declares and definitions of the kit are not counted.
"""
import collections
import pathlib
import re
import sys
from typing import Dict, List, NamedTuple, Set, Tuple

CRATES = pathlib.Path(__file__).resolve().parent.parent / "crates"

HEADLINE = [
    "zk_cli.specs.Meets.ShowsGiven",
    "zk_cli.specs.Meets.GrantsOnceGiven",
    "file_commands.specs.Journals.disk_change",
    "file_commands.specs.Journals.IsJournalDisk",
    "command_words.specs.Words.asked",
    "command_words.specs.Words.texts",
]

NAME = re.compile(r"(?:abbrev )?(?:pub )?(?:record |data )?(?:abbrev )?(?:pub )?(\S+)")
IMPORT = re.compile(r"use Rattle\.([\w.]+)\.\{(.*)\}")
RENAMED = re.compile(r"use Rattle\.([\w.]+) as (\w+)")


class Module(NamedTuple):
    """The definitions of a file, by name, and what its imports mean."""

    lines: Dict[str, List[str]]
    imports: Dict[str, str]
    modules: Dict[str, str]
    constructors: Dict[str, str]


def read_module(path: pathlib.Path) -> Module:
    """The module in a file of `specs`."""
    module = Module({}, {}, {}, {})
    name = ""
    for line in path.read_text(encoding="utf-8").splitlines():
        if not line.strip() or line.lstrip().startswith("-- "):
            continue
        if found := IMPORT.match(line):
            module.imports.update((item.strip(), found[1]) for item in found[2].split(","))
        elif found := RENAMED.match(line):
            module.modules[found[2]] = found[1]
        else:
            if not line[0].isspace():
                name = NAME.match(line)[1]
            module.lines.setdefault(name, []).append(line)
    for name, lines in module.lines.items():
        if re.match(r"(pub )?data ", lines[0]):
            module.constructors.update((found[1], name) for line in lines if (found := re.match(r"  (\S+) :", line)))
    return module


def words_of(lines: List[str], operators: List[str]) -> Set[str]:
    """The names that stand in these lines, and the operators of which a sign does."""
    words = set(re.findall(r"[^\s(){};,]+", " ".join(lines)))
    words |= {word.split(".")[0] for word in words}
    return words | {operator for operator in operators if operator.replace("◌", "") in words}


def find(modules: Dict[str, Module], place: str, word: str) -> Tuple[str, str]:
    """The module and the name of what a word means in a module; no name where that is no definition of ours."""
    module = modules[place]
    alias, _, rest = word.partition(".")
    if rest and alias in module.modules:
        place, word = module.modules[alias], rest
    elif word in module.imports:
        place = module.imports[word]
    if place not in modules:
        return place, ""
    word = modules[place].constructors.get(word, word)
    return place, word if word in modules[place].lines else ""


def below(modules: Dict[str, Module], starts: List[str]) -> Set[Tuple[str, str]]:
    """All definitions that these names lead to."""
    seen: Set[Tuple[str, str]] = set()
    left = [(place, name) for place, _, name in (start.rpartition(".") for start in starts)]
    while left:
        place, name = left.pop()
        if (place, name) in seen:
            continue
        seen.add((place, name))
        module = modules[place]
        operators = [word for word in [*module.imports, *module.lines] if "◌" in word]
        named = (find(modules, place, word) for word in words_of(module.lines[name], operators))
        left += [item for item in named if item[1]]
    return seen


def main() -> None:
    """Prints the counts, for each crate and in all."""
    modules = {
        f"{path.parts[-3]}.specs.{path.stem}": read_module(path)
        for path in CRATES.glob("*/specs/*.antt")
        if path.stem != "Lib"
    }
    definitions: Dict[str, int] = collections.Counter()
    lines: Dict[str, int] = collections.Counter()
    for place, name in below(modules, sys.argv[1:] or HEADLINE):
        crate = place.partition(".")[0]
        definitions[crate] += 1
        lines[crate] += len(modules[place].lines[name])
    for crate in sorted(definitions, key=lambda crate: -definitions[crate]):
        print(f"{crate}: {definitions[crate]} definitions in {lines[crate]} lines")
    print(f"in all: {sum(definitions.values())} definitions in {sum(lines.values())} lines")


if __name__ == "__main__":
    main()
