#!/usr/bin/env python3
"""The transcript that crates/scenarios must print of its files of scenarios, by tools/reference.py and the rules of
docs/FORMATS.md alone: the product isn't run, and what it printed isn't read. With --write it goes to the crate's
stdout, which the gate compares with what the program prints. With --check that file is compared with it, and the first
difference is printed; the status is 1 where there is one.

    tools/scenarios.py [--write | --check] [FILE ..]
"""

import argparse
import sys
from collections.abc import Iterator, Sequence
from dataclasses import dataclass
from itertools import zip_longest
from pathlib import Path

import scenario_stage
from scenario_commands import World

CRATES = Path(__file__).resolve().parent.parent / "crates"


@dataclass(frozen=True)
class Told:
    """A line of a transcript, and where it stands: the file of scenarios, the heading and the command."""

    file: str
    heading: str
    command: str
    line: str


def placed(name: str, transcript: str) -> Iterator[Told]:
    """The lines of the transcript of a file, each with its place."""
    heading = command = ""
    for line in transcript.splitlines():
        if line.startswith("== "):
            heading, command = line, ""
        elif line.startswith("$"):
            command = line
        yield Told(name, heading, command, line)


def first_difference(expected: Sequence[Told], held: Sequence[str]) -> str | None:
    """Where a transcript that is held differs first from the expected one, or None."""
    place: Told | None = None
    for wanted, given in zip_longest(expected, held):
        place = wanted or place
        if wanted is None or wanted.line != given:
            where = f"{place.file}, {place.heading or 'before the first heading'}\n{place.command}\n" if place else ""
            return f"{where}  expected: {wanted.line if wanted else '(nothing)'}\n  held:     {given or '(nothing)'}"
    return None


def check(here: Path, transcripts: Sequence[tuple[str, str]]) -> int:
    """Compares the transcripts with the crate's stdout, and answers the exit status."""
    held = (here / "stdout").read_text(encoding="utf-8")
    if held == "".join(text for _, text in transcripts):
        print(f"{here.name}: stdout is what {Path(sys.argv[0]).name} makes")
        return 0
    expected = [told for name, text in transcripts for told in placed(name, text)]
    difference = first_difference(expected, held.splitlines()) or "they differ in the ends of lines"
    print(f"{here.name}: stdout isn't what {Path(sys.argv[0]).name} makes\n{difference}")
    return 1


def main(crate: str, world: scenario_stage.World) -> None:
    """Makes the transcripts of a crate's files of scenarios, or of those that are named."""
    parser = argparse.ArgumentParser(description=f"The transcript that crates/{crate} must print, by another program.")
    how = parser.add_mutually_exclusive_group()
    how.add_argument("--write", action="store_true", help="write the crate's stdout")
    how.add_argument("--check", action="store_true", help="compare with the crate's stdout")
    parser.add_argument("files", nargs="*", type=Path, help="files of scenarios in place of all that the crate has")
    args = parser.parse_args()
    if args.files and (args.write or args.check):
        parser.error("the crate's stdout is that of all its files")
    here = CRATES / crate
    files: list[Path] = args.files or [here / "data" / name for name in (here / "args").read_text().split()]
    transcripts = [(file.name, scenario_stage.transcript(file.read_text(encoding="utf-8"), world)) for file in files]
    if args.check:
        sys.exit(check(here, transcripts))
    text = "".join(text for _, text in transcripts)
    if args.write:
        (here / "stdout").write_text(text, encoding="utf-8")
    else:
        sys.stdout.write(text)


if __name__ == "__main__":
    main("scenarios", World)
