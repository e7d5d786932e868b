#!/usr/bin/env python3
"""Lists the lemmas and definitions of crates/*/proofs and crates/*/specs that nothing uses.

usage: tools/unused_lemmas.py [FOLDER]

A name is used where a source or a goal's own file (proofs/FILE/FUNCTION/..) cites it, or a name that is used does. The
status is 1 where something is listed.
"""

from __future__ import annotations

import re
import sys
from collections.abc import Iterator
from dataclasses import dataclass, field
from pathlib import Path

WORD = re.compile(r"[^\s(){}\[\],;.]+")
IMPORT = re.compile(r"^\s*(?:ghost |pub )*use Rattle\.(\S+?)(?:\.\{([^}]*)\}| as (\S+))?;?$", re.M)
USED_BY = re.compile(r"\b(\w+)::(proofs|specs)::((?:\w+::)*)([^\s(),\]]+)")
KIND = r"\s*(?:pub |abbrev |unfoldable )*"
DEFINED = re.compile(rf"{KIND}(?:record|data) (?P<record>[^\s{{]+)|{KIND}(?P<name>[^\s(){{}}]+) :(?: |$)")

Place = tuple[str, str]


@dataclass
class Item:
    """One definition of a file: where it stands, how far it is indented, and the words of its text."""

    name: str
    line: int
    depth: int = 0
    words: set[str] = field(default_factory=set)


@dataclass
class Module:
    """One file: what it imports, as its own word for a name of another file, and what it defines."""

    path: Path
    name: str
    imports: dict[str, Place]
    wholes: dict[str, str]
    items: dict[str, Item]
    is_root: bool


def items_of(text: str) -> dict[str, Item]:
    """Splits a file into its definitions, those of its modules and of `where` too. A module's parameters count to each."""
    found: dict[str, Item] = {}
    shared: set[str] = set()
    last, record = Item("", 0), -1
    for number, whole in enumerate(text.split("\n"), 1):
        line = whole.split("--")[0].rstrip()
        depth = len(line) - len(line.lstrip())
        if not line or line.lstrip().startswith(("use ", "pub use ")):
            continue
        record = -1 if depth <= record else record
        if line.lstrip().startswith("module "):
            last = Item("", number, depth, shared)
        elif record < 0 and (is_begun := DEFINED.match(line)):
            record = depth if is_begun["record"] else -1
            name = is_begun["record"] or is_begun["name"]
            last = found.setdefault(name, Item(name, number, depth))
        elif (clause := found.get(line.split()[0])) and clause.depth == depth:
            last = clause
        last.words.update(WORD.findall(line))
    for item in found.values():
        item.words |= shared
    return found


def imports_of(text: str, crate: str) -> tuple[dict[str, Place], dict[str, str]]:
    """Reads which names a file takes from which other, and which files it takes whole. A source names some by paths."""
    names: dict[str, Place] = {}
    wholes: dict[str, str] = {}
    for module, taken, alias in IMPORT.findall(text):
        if not taken:
            wholes[alias or module.rsplit(".", 1)[-1]] = module
        for it in filter(None, (it.strip() for it in taken.split(","))):
            name, _, other = it.partition(" as ")
            names[(other or name).strip()] = (module, name.strip())
    for path in USED_BY.finditer(text):
        module = [crate if path[1] == "crate" else path[1], path[2], *path[3].split("::")[:-1]]
        names[path[0]] = (".".join(module), path[4])
    return names, wholes


def modules(root: Path) -> Iterator[Module]:
    """Reads each source, definition and proof of the repository."""
    kinds = ("src/**/*.rt", "specs/**/*.antt", "proofs/**/*.antt")
    for path in sorted(it for kind in kinds for it in root.glob(f"crates/*/{kind}")):
        parts = path.relative_to(root / "crates").parts
        text = path.read_text()
        name = ".".join((*parts[:-1], path.stem))
        names, wholes = imports_of(text, parts[0])
        is_root = parts[1] == "src" or len(parts) > 3
        items = {"": Item("", 1, 0, set(WORD.findall(text)))} if is_root else items_of(text)
        yield Module(path, name, names, wholes, items, is_root)


def unused(root: Path) -> list[tuple[Path, Item]]:
    """Walks from what must be kept to all that it cites, and gives the rest."""
    known = {it.name: it for it in modules(root)}
    todo: list[Place] = [(it.name, "") for it in known.values() if it.is_root]
    seen = set(todo)

    def cite(place: Place) -> None:
        if place[0] in known and place[1] in known[place[0]].items and place not in seen:
            seen.add(place)
            todo.append(place)

    while todo:
        module, name = todo.pop()
        here = known[module]
        words = here.items[name].words
        words |= {it for it in {*here.items, *here.imports} if "◌" in it and words & set(it.split("◌"))}
        for word in set(words):
            cite((module, word))
            if word in here.imports:
                cite(here.imports[word])
            if word in here.wholes:
                for inner in words:
                    cite((here.wholes[word], inner))
    rest = [it for it in known.values() if not it.is_root and it.path.stem != "Lib"]
    return [(it.path, item) for it in rest for name, item in it.items.items() if (it.name, name) not in seen]


def main() -> int:
    """Prints the file, the line and the name of each."""
    root = Path(sys.argv[1] if len(sys.argv) > 1 else Path(__file__).parent.parent)
    found = unused(root)
    for path, item in found:
        print(f"{path.relative_to(root)}:{item.line}: {item.name}")
    print(f"{len(found)} lemmas and definitions that nothing uses")
    return 1 if found else 0


if __name__ == "__main__":
    sys.exit(main())
