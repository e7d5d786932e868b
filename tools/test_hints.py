"""Holds tools/hints.py against the program and against docs/FORMATS.md.

    /usr/bin/python3 -m pytest tools/test_hints.py

It needs Debian's python3-pytest and python3-hypothesis.
"""

import os
import re
import subprocess
import tempfile

from hypothesis import given, settings
from hypothesis import strategies as st

from hints import COMMANDS, FAULTS, TOP, Command, hints
from program import path_of_program

PROGRAM = path_of_program()
KEYS = ["1" * 64, "aB" * 32, "1" * 63, "g" * 64, "0x" + "1" * 62, "1" * 66, ""]
NUMBERS = ["1", "0", "7", "00000000000000000064", "64", "65", "18446744073709551615", "18446744073709551616", "1.5"]
WORDS = {
    "ISSUER": KEYS,
    "LOG": KEYS,
    "SERIAL": ["05", "00d0", "5", "", "00:05", "0x05", "1" * 64, "1" * 66, "zz", "٣٣"],
    "TIME": [*NUMBERS, "2023-11-14T22:13:20Z", "20231114", "-1", "+1", "٣", "1 "],
    "MOMENT": [*NUMBERS, "2023-11-14"],
    "NUMBER": NUMBERS,
    "WORKERS": [*NUMBERS, "four"],
    "PLACE": ["0", "1", "65535", "65536", "-1", ""],
    "COUNT": ["1", "65536", "65537", "0", "1000001", "x"],
    "BY": ["issuer", "identity", "issuers", "ISSUER", ""],
    "CAPACITY": ["1", "0", "1099511627776", "1099511627777", "4k"],
}
NAMES = ["a", "b", "c", "d", "e", "-f", "", "a\x1fb", "a\x7f", "é", "n" * 4096, "n" * 4097]


def word_of(name: str) -> st.SearchStrategy[str]:
    """A word for a place of this name, right or wrong; the first of each list are the right ones, and most often."""
    pool = WORDS.get(name, NAMES)
    return st.one_of(
        st.sampled_from(pool[:2] if name in WORDS else pool[:5]), st.sampled_from(pool), st.text("0aA:", max_size=4)
    )


@st.composite
def calls(draw: st.DrawFn) -> list[str]:
    """The words of a call, of which each may be wrong, and their number too."""
    command = draw(st.sampled_from(COMMANDS))
    rounds = draw(st.integers(0, 3)) if command.repeated else 0
    names = command.once.split() + command.repeated.split() * rounds
    words = [draw(word_of(name)) for name in names]
    cut = draw(st.sampled_from([0, 0, 0, 0, 1, -1]))
    words = words[:-1] if cut < 0 else words + ["e"] * cut
    return [draw(st.sampled_from([command.name] * 9 + [command.name.upper(), "-h", ""])), *words]


def status(words: list[str]) -> int:
    """What the program ends with, in a folder of its own."""
    with tempfile.TemporaryDirectory() as folder:
        return subprocess.run([PROGRAM, *words], cwd=folder, stdout=subprocess.DEVNULL, check=False).returncode


@settings(max_examples=500, deadline=None)
@given(calls())
def test_a_hint_is_given_exactly_where_the_words_are_no_command(words: list[str]) -> None:
    assert bool(hints(words)) == (status(words) == 2)


def test_as_many_words_as_the_program_takes() -> None:
    for command, most in ((command, command.most) for command in COMMANDS if command.repeated):
        once = [WORDS[name][0] if name in FAULTS else "abcd"[place] for place, name in enumerate(command.once.split())]
        names = command.repeated.split()
        for rounds in (0, 1, most, most + 1):
            # What is written has names of its own.
            again = [WORDS[name][0] if name in FAULTS else f"e{at}" for at in range(rounds) for name in names]
            words = [command.name, *once, *again]
            assert bool(hints(words)) == (status(words) == 2) == (rounds in (0, most + 1))


def documented() -> list[Command]:
    """The commands of docs/FORMATS.md, without what they write."""
    with open(os.path.join(TOP, "docs", "FORMATS.md"), encoding="utf-8") as file:
        section = file.read().split("\n## Words\n")[1].split("\n## ")[0]
    rows = re.findall(
        r"^\| `([a-z-]+)` \| ([A-Z ]+?)(?:, then 1 to (\d+) (?:pairs|words) ([A-Z ]+))? \|$", section, re.M
    )
    return [Command(name, once, repeated, int(most or 0)) for name, once, most, repeated in rows]


def test_the_commands_are_those_of_the_document() -> None:
    assert documented() == [Command(command.name, command.once, command.repeated, command.most) for command in COMMANDS]


def test_completion_has_the_commands() -> None:
    with open(os.path.join(TOP, "tools", "clubcard.bash"), encoding="utf-8") as file:
        listed = re.search(r'-W "([^"]*)"', file.read())
    assert listed and listed[1].replace("\\", " ").split() == [command.name for command in COMMANDS]
