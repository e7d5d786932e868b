#!/usr/bin/env python3
"""Prints the licences of the toolchain's crates that are linked into the released program and library.

    tools/licences.py [KIT] > release/LICENSES

KIT is the toolchain's folder; without it, it is the one of the command rt. The crates are those that crates.txt names
for `clubcard` and `clubcard_c` and for what lies below these, and those that lie below them in KIT. Their licences are
the files beside their sources, each text once. `tools/release.sh` runs this script. Where a crate isn't in KIT the
status is 1.
"""

import os
import re
import subprocess
import sys
import textwrap
from collections.abc import Iterable
from dataclasses import dataclass

TOP = os.path.dirname(os.path.dirname(os.path.abspath(__file__)))
RELEASED = (("the program", "clubcard"), ("the library for C", "clubcard_c"))
LICENCE = re.compile("(UN)?LICEN[CS]E|COPYING|COPYRIGHT|NOTICE")
RULE = "-" * 80


@dataclass(frozen=True)
class Licence:
    """A licence of a crate: the file's name and its text."""

    crate: str
    file: str
    text: str


def own_crates() -> dict[str, list[str]]:
    """The crates of crates.txt, each with those that it names."""
    with open(os.path.join(TOP, "crates.txt"), encoding="utf-8") as file:
        lines = [line.split("#")[0].split(":") for line in file]
    return {line[0].split()[0]: line[1].split() for line in lines if len(line) == 2}


def named_below(crate: str, own: dict[str, list[str]]) -> set[str]:
    """The toolchain's crates that a crate of this repository and those below it name; each has `std`."""
    found, left, named = set(), [crate], {"std"}
    while left:
        name = left.pop()
        if name in own and name not in found:
            found.add(name)
            left += own[name]
        elif name not in own:
            named.add(name)
    return named


def with_below(kit: str, crates: Iterable[str]) -> set[str]:
    """Crates of the toolchain, and those below them."""
    everything = set(crates)
    for crate in crates:
        library = os.path.join(kit, "rlibs", f"{crate}.rlib")
        if not os.path.isdir(library):
            sys.exit(f"licences: {crate} isn't in {kit}")
        below = os.path.join(library, "below")
        everything.update(os.listdir(below) if os.path.isdir(below) else [])
    return everything


def licences_of(kit: str, crate: str) -> list[Licence]:
    """The licences that stand beside the sources of a crate."""
    folder = os.path.join(kit, "rattle", crate)
    found = []
    for name in sorted(os.listdir(folder)):
        if LICENCE.match(name):
            with open(os.path.join(folder, name), encoding="utf-8") as file:
                found.append(Licence(crate, name, file.read().strip("\n")))
    return found


def by_text(licences: Iterable[Licence]) -> list[list[Licence]]:
    """The licences parted by their texts; spaces and ends of lines make no difference."""
    parted: dict[str, list[Licence]] = {}
    for licence in licences:
        parted.setdefault(" ".join(licence.text.split()), []).append(licence)
    return list(parted.values())


def filled(text: str) -> str:
    """A paragraph with lines of at most 80 columns."""
    return textwrap.fill(text, 80, break_on_hyphens=False)


def heading(kit: str, linked: dict[str, set[str]]) -> str:
    """What stands before the texts."""
    everything = sorted(set().union(*linked.values()))
    bare = [crate for crate in everything if not licences_of(kit, crate)]
    paragraphs = [
        "The licences of what is linked into the program and the library of this folder besides the project's own code,"
        " whose licences are LICENSE-APACHE and LICENSE-MIT at the top of the repository. They are those that stand"
        " beside the sources of the crates in the toolchain that TOOLCHAIN names; of a crate with several licences"
        " each is printed.",
        *(f"Crates of which {what} is built: {', '.join(sorted(crates))}." for what, crates in linked.items()),
        f"Beside the sources of these there is no licence: {', '.join(bare)}; nor beside the toolchain's C code"
        " for the heap, files and threads.",
    ]
    return "\n\n".join(map(filled, paragraphs))


def main() -> int:
    if len(sys.argv) > 2:
        sys.exit(f"usage: {sys.argv[0]} [KIT]")
    if len(sys.argv) == 2:
        kit = sys.argv[1]
    else:
        kit = os.path.dirname(
            subprocess.run(["rt", "doc"], stdout=subprocess.PIPE, text=True, check=True).stdout.strip()
        )
    own = own_crates()
    linked = {what: with_below(kit, named_below(crate, own)) for what, crate in RELEASED}
    print(heading(kit, linked))
    for same in by_text(
        licence for crate in sorted(set().union(*linked.values())) for licence in licences_of(kit, crate)
    ):
        files = ", ".join(f"{licence.crate} ({licence.file})" for licence in same)
        print(f"\n{RULE}\n{filled(files)}\n{RULE}\n\n{same[0].text}")
    return 0


if __name__ == "__main__":
    sys.exit(main())
