"""Words: times, numbers and logs, words that stand in a file, and what is said of wrong ones."""

import shlex
from collections.abc import Iterator, Sequence
from pathlib import Path
from typing import IO, Any

import click

FIRST_MILLISECOND = 10**12
_LATEST = (1 << 64) - 1


class Wrong(click.ClickException):
    """A word or a file isn't as it must be, and nothing was written. The status is 2."""

    exit_code = 2

    def show(self, file: IO[Any] | None = None) -> None:
        """Says it on standard error."""
        click.echo(f"clubcardctl: {self.message}", file=file, err=file is None)


class NoCertificate(Wrong):
    """A file holds no certificate."""

    exit_code = 5


class NoStore(Wrong):
    """A store can't be read, or isn't one."""

    exit_code = 7


def number(word: str) -> int:
    """A number of 64 bits, from decimal digits."""
    if not (word.isascii() and word.isdigit() and len(word) <= 20) or int(word) > _LATEST:
        raise Wrong(f"{word}: not a number below 2^64 of 1 to 20 decimal digits")
    return int(word)


def milliseconds(word: str, what: str) -> int:
    """A moment in milliseconds since 1970, from decimal digits. One that can't be of milliseconds is refused: before
    September 2001 there was no log of certificates."""
    if not word.isdigit():
        raise Wrong(f"{what} {word}: a time is a number of milliseconds; `date -d '{word}' +%s000` prints a date's")
    moment = number(word)
    if moment < FIRST_MILLISECOND:
        raise Wrong(f"{what} {word}: milliseconds since 1970 have 13 digits; {_seconds_hint(moment)}")
    return moment


def _seconds_hint(count: int) -> str:
    """What to write in place of a count that is too small to be one of milliseconds."""
    if count >= FIRST_MILLISECOND // 1000:
        return f"if these are seconds, write {count}000"
    return "write a time as `date +%s000` prints it"


def octets(word: str, least: int, most: int, what: str) -> bytes:
    """So many bytes, from hexadecimal digits in either case."""
    try:
        found = bytes.fromhex(word)
    except ValueError:
        found = b""
    if len(word) != 2 * len(found) or not least <= len(found) <= most:
        digits = f"{2 * least}" if least == most else f"{2 * least} to {2 * most}, two for each octet"
        raise Wrong(f"{word}: {what} has {digits} hexadecimal digits")
    return found


def log_id(word: str) -> bytes:
    """A log id, from hexadecimal digits."""
    return octets(word, 32, 32, "a log id")


def _words_of_file(name: str, within: Sequence[str]) -> Iterator[str]:
    """The words in a file, one option to a line, quoted as for a shell."""
    if name in within or len(within) > 16:
        raise Wrong(f"@{name}: the file stands for itself")
    try:
        for line in Path(name).read_text(encoding="utf-8").splitlines():
            yield from expanded(shlex.split(line, comments=True), [*within, name])
    except OSError as error:
        raise Wrong(f"@{name}: {error.strerror}") from error
    except ValueError as error:
        raise Wrong(f"@{name}: {error}") from error


def expanded(words: Sequence[str], within: Sequence[str] = ()) -> Iterator[str]:
    """The words, of which each `@FILE` stands for the words in that file."""
    for word in words:
        if word.startswith("@"):
            yield from _words_of_file(word[1:], within)
        else:
            yield word


class WordsInFiles(click.Command):
    """A command whose words may stand in a file."""

    def parse_args(self, ctx: click.Context, args: list[str]) -> list[str]:
        """Reads the words, those of files among them."""
        return super().parse_args(ctx, list(expanded(args)))
