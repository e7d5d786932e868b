"""Says on standard error which word of a call of clubcard isn't as it must be, and what to write in its place.

    python3 tools/hints.py WORD ..

./clubcard runs it where the program printed `usage`. The words of each command are those of docs/FORMATS.md, "Words".
"""

from __future__ import annotations

import base64
import binascii
import difflib
import itertools
import os
import re
import sys
from collections.abc import Callable, Iterable, Iterator
from dataclasses import dataclass
from datetime import datetime, timezone

TOP = os.path.dirname(os.path.dirname(os.path.abspath(__file__)))
READ_ON = 'read on in README.md ("Commands and statuses"), docs/FORMATS.md ("Words"), and `man ./docs/clubcard.1`.'
IDENTITY = "clubcardctl identity CERT ISSUERCERT prints ISSUER and SERIAL"
MOST_SHOWN = 5
LONGEST_SHOWN = 100


@dataclass(frozen=True)
class Command:
    """A command and the words behind it: those that stand once, and those that stand 1 to `most` times."""

    name: str
    once: str
    repeated: str = ""
    most: int = 0
    written: str = ""

    def usage(self) -> str:
        """The line that says the words."""
        words = [self.name, self.once] + [f"{self.repeated} [{self.repeated} ..]"] * bool(self.repeated)
        return " ".join(words)

    def fits(self, count: int) -> bool:
        """Whether there may be so many words behind the command."""
        rounds, left = divmod(count - len(self.once.split()), max(1, len(self.repeated.split())))
        return left == 0 and (1 <= rounds <= self.most if self.repeated else rounds == 0)

    def named(self, words: list[str]) -> Iterator[tuple[str, str]]:
        """Each word with its name, where their number fits."""
        names = self.once.split() + self.repeated.split() * self.most
        return zip(names, words)


COMMANDS = (
    Command("snapshot", "JOB PART LEDGER WORKERS", written="PART LEDGER"),
    Command("delta", "JOB LEDGER PART NEWLEDGER WORKERS", written="PART NEWLEDGER"),
    Command("rebase", "LEDGER MOMENT PART NEWLEDGER WORKERS", written="PART NEWLEDGER"),
    Command("rebase-without", "LEDGER MOMENT PART NEWLEDGER WORKERS", "ISSUER", 1024, written="PART NEWLEDGER"),
    Command("split", "LEDGER MOMENT BY COUNT PLACE PART NEWLEDGER WORKERS", written="PART NEWLEDGER"),
    Command("start", "PART STORE", written="STORE"),
    Command("install", "STORE PART NEWSTORE", written="NEWSTORE"),
    Command("query", "STORE ISSUER SERIAL", "LOG TIME", 64),
    Command("query-cert", "STORE CERT ISSUERCERT"),
    Command("check", "PART"),
    Command("show", "PART"),
    Command("rehearse", "QUERIES WORKERS", "JOB", 64),
    Command("sample", "NUMBER COUNT JOB", written="JOB"),
    Command("gather", "HEAD LOG JOB", "PAGE", 1024, written="JOB"),
    Command("merge", "HEAD JOB", "PIECE", 1024, written="JOB"),
    Command("cut", "BY JOB", "PIECE", 1024, written="PIECE"),
    Command("audit", "STORE", "JOB", 64),
    Command("place", "BY ISSUER SERIAL COUNT"),
    Command("device-format", "DEVICE CAPACITY STORE", written="DEVICE"),
    Command("device-install", "DEVICE PART", written="DEVICE"),
    Command("device-query", "DEVICE ISSUER SERIAL", "LOG TIME", 64),
)


def counted(count: int, thing: str) -> str:
    """How many of a thing there are."""
    return f"{count} {thing}" + "s" * (count != 1)


def shown(word: str) -> str:
    """A word as a line shows it: a long one is cut, and of control characters the escapes are shown."""
    text = word if word.isprintable() else repr(word)[1:-1]
    return f"`{text}`" if len(text) <= LONGEST_SHOWN else f"`{text[:LONGEST_SHOWN]}..`"


def is_hexadecimal(word: str) -> bool:
    """Whether all of a word, which isn't empty, are hexadecimal digits."""
    return re.fullmatch("[0-9a-fA-F]+", word) is not None


def digits_fault(word: str) -> str | None:
    """What is wrong with hexadecimal digits whatever their number: marks between them, or other characters."""
    if is_hexadecimal(word):
        return None
    bare = re.sub("[: -]", "", word.removeprefix("0x").removeprefix("0X"))
    if is_hexadecimal(bare):
        return f"has characters that are no digits; write it without `0x`, colons and spaces: {bare}"
    return "has characters that are no hexadecimal digits"


def base64_fault(word: str) -> str | None:
    """What is wrong with a key that is written in Base64, as lists of logs have it."""
    try:
        octets = base64.b64decode(word, validate=True)
    except (binascii.Error, ValueError):
        return None
    return f"is Base64; write it in hexadecimal: {octets.hex()}" if len(octets) == 32 else None


def key_fault(word: str) -> str | None:
    """What is wrong with a key."""
    if len(word) == 64 and is_hexadecimal(word):
        return None
    given = digits_fault(word) or f"has {counted(len(word), 'digit')}"
    return base64_fault(word) or f"{given}; 64 hexadecimal digits are wanted"


def issuer_fault(word: str) -> str | None:
    """What is wrong with an issuer's key."""
    fault = key_fault(word)
    return fault and f"{fault}, the SHA-256 of the issuer's key: {IDENTITY}"


def log_fault(word: str) -> str | None:
    """What is wrong with a log's id."""
    fault = key_fault(word)
    return fault and f"{fault}, the log's id (RFC 6962, 3.2)"


def serial_fault(word: str) -> str | None:
    """What is wrong with a serial."""
    fault = digits_fault(word)
    if fault is None and len(word) > 64:
        fault = f"has {len(word)} digits, and a serial has 64 at most"
    if fault is None and len(word) % 2:
        fault = f"has {counted(len(word), 'digit')}, and two are wanted for each octet: write 0{word}"
    return fault and f"{fault} ({IDENTITY})"


def number_fault(word: str) -> str | None:
    """What is wrong with a number."""
    if re.fullmatch("[0-9]{1,20}", word) and int(word) < 1 << 64:
        return None
    if re.fullmatch("[0-9]+", word):
        return "is greater than 18446744073709551615, or has more than 20 digits"
    return "is no number; write decimal digits alone"


def time_fault(word: str) -> str | None:
    """What is wrong with a time."""
    try:
        moment = datetime.fromisoformat(word)
    except ValueError:
        fault = number_fault(word)
        return fault and f"{fault}, the milliseconds since 1970"
    if number_fault(word) is None:
        return None
    if moment.tzinfo is None:
        moment = moment.replace(tzinfo=timezone.utc)
    return f"is a date; in milliseconds since 1970, which are wanted, it is {round(moment.timestamp() * 1000)}"


def bounded_fault(least: int, most: int) -> Callable[[str], str | None]:
    """What is wrong with a number that has bounds."""

    def fault(word: str) -> str | None:
        if number_fault(word) is None and least <= int(word) <= most:
            return None
        return f"isn't a number of {least} to {most}"

    return fault


def way_fault(word: str) -> str | None:
    """What is wrong with the word that says by what places are."""
    return None if word in ("issuer", "identity") else "is neither `issuer` nor `identity`"


def name_fault(word: str) -> str | None:
    """What is wrong with the name of a file."""
    if not word:
        return "is empty, and the name of a file is wanted"
    if len(word.encode("utf-8", "surrogateescape")) > 4096:
        return "is longer than 4096 bytes, and the name of a file is wanted"
    if any(ord(character) < 32 or ord(character) == 127 for character in word):
        return "has a control character, and the name of a file has none: give it another name"
    return None


# What is wrong with a word of this name, of one command or of each.
FAULTS: dict[str, Callable[[str], str | None]] = {
    "BY": way_fault,
    "place COUNT": bounded_fault(1, 65536),
    "split COUNT": bounded_fault(1, 65536),
    "PLACE": bounded_fault(0, 65535),
    "ISSUER": issuer_fault,
    "LOG": log_fault,
    "SERIAL": serial_fault,
    "TIME": time_fault,
    "MOMENT": time_fault,
    "NUMBER": number_fault,
    "WORKERS": bounded_fault(1, 64),
    "COUNT": bounded_fault(1, 1000000),
    "CAPACITY": bounded_fault(1, 1 << 40),
}


def same_names(command: Command, words: list[str]) -> Iterator[str]:
    """What is wrong with names of files that must differ: what is written is nothing else that is read or written."""
    written = command.written.split()
    files = [pair for pair in command.named(words) if pair[0] not in FAULTS]
    for (name, word), (other, same) in itertools.combinations(files, 2):
        if word == same and (name in written or other in written):
            yield f"{name} and {other} are both {shown(word)}; a file that is written is no other file of the command"


def far_place(command: Command, words: list[str]) -> Iterator[str]:
    """What is wrong with a place that there isn't among so many."""
    given = dict(command.named(words))
    place, count = given.get("PLACE", ""), given.get("COUNT", "")
    if number_fault(place) is None and number_fault(count) is None and int(place) >= int(count):
        yield f"PLACE {shown(place)} isn't below COUNT, which is {count}"


def word_faults(command: Command, words: list[str]) -> Iterator[str]:
    """What is wrong with the words behind a command, whose number fits."""
    for name, word in command.named(words):
        fault = FAULTS.get(f"{command.name} {name}", FAULTS.get(name, name_fault))(word)
        if fault:
            yield f"{name} {shown(word)} {fault}"
    yield from far_place(command, words)
    yield from same_names(command, words)


def number_of_words(command: Command, count: int) -> str:
    """What is wrong with the number of words behind a command."""
    wanted = command.once
    if command.repeated:
        wanted += f", then {command.repeated} 1 to {command.most} times"
    return f"`{command.name}` takes {wanted}; {counted(count, 'word')} {'was' if count == 1 else 'were'} given"


def unknown(word: str) -> str:
    """What is wrong with a word that is no command."""
    names = [command.name for command in COMMANDS]
    near = difflib.get_close_matches(word.lower().replace("_", "-"), names, n=1)
    return f"{shown(word)} is no command" + (f"; `{near[0]}` is one" if near else "")


def version() -> str:
    """The version of this tree."""
    with open(os.path.join(TOP, "VERSION"), encoding="utf-8") as file:
        return file.read().strip()


def usages(commands: Iterable[Command]) -> list[str]:
    """The lines that say the words of commands."""
    return [f"    clubcard {command.usage()}" for command in commands]


def hints(words: list[str]) -> list[str]:
    """The lines about words that are no command, and none where nothing is wrong with them."""
    if not words:
        return ["no command is given", *usages(COMMANDS)]
    if words[0] in ("-h", "--help", "help", "-?"):
        return [f"`{words[0]}` is no command, and there are no options", *usages(COMMANDS)]
    if words[0] in ("-V", "-v", "--version", "version"):
        return [f"`{words[0]}` is no command; this is version {version()}"]
    for place, word in enumerate(words):
        if not word.isprintable() and any("\udc80" <= character <= "\udcff" for character in word):
            return [f"word {place + 1} isn't UTF-8: give the file another name"]
    command = next((command for command in COMMANDS if command.name == words[0]), None)
    if command is None:
        return [unknown(words[0]), *usages(COMMANDS)]
    behind = words[1:]
    if not command.fits(len(behind)):
        return [number_of_words(command, len(behind)), *usages([command])]
    faults = list(word_faults(command, behind))
    return [*faults[:MOST_SHOWN], *usages([command])] if faults else []


def main() -> int:
    lines = hints(sys.argv[1:]) or ["the words are no command"]
    text = "\n".join(line if line.startswith(" ") else f"clubcard: {line}" for line in [*lines, READ_ON])
    sys.stderr.buffer.write(text.encode("utf-8", "backslashreplace") + b"\n")
    return 0


if __name__ == "__main__":
    sys.exit(main())
