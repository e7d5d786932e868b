"""The words of commands, by docs/FORMATS.md ("Words")."""

import re
from collections.abc import Sequence

Key = bytes
Sighting = tuple[bytes, int]
Identity = tuple[bytes, int, bytes]


class Usage(Exception):
    """Words that are no command."""


def name(word: str) -> str:
    """The name of a file."""
    if not 1 <= len(word.encode()) <= 4096 or any(ord(c) < 0x20 or ord(c) == 0x7F for c in word):
        raise Usage
    return word


def names(words: Sequence[str], most: int = 64) -> Sequence[str]:
    """One name or more, at most so many."""
    if not 1 <= len(words) <= most:
        raise Usage
    return [name(word) for word in words]


def apart(outputs: Sequence[str], inputs: Sequence[str]) -> None:
    """The names of outputs differ from each other and from those of inputs."""
    names(outputs, 1024)
    names(inputs, 1025)
    if len(set(outputs)) < len(outputs) or set(outputs) & set(inputs):
        raise Usage


def key(word: str) -> Key:
    """An issuer or a log."""
    if not re.fullmatch("[0-9a-fA-F]{64}", word):
        raise Usage
    return bytes.fromhex(word)


def keys(words: Sequence[str], most: int) -> Sequence[Key]:
    """One key or more, at most so many."""
    if not 1 <= len(words) <= most:
        raise Usage
    return [key(word) for word in words]


def number(word: str, least: int = 0, most: int = 2**64 - 1) -> int:
    """A number in these bounds."""
    if not re.fullmatch("[0-9]{1,20}", word) or not least <= int(word) <= most:
        raise Usage
    return int(word)


def workers(word: str) -> int:
    """How many threads build blocks, which changes nothing of what is written."""
    return number(word, 1, 64)


def identity(issuer: str, digits: str) -> Identity:
    """An issuer and a serial."""
    if not re.fullmatch("([0-9a-fA-F]{2}){1,32}", digits):
        raise Usage
    octets = bytes.fromhex(digits)
    return key(issuer), len(octets), octets


def by(word: str) -> str:
    """By what a history is cut."""
    if word not in ("issuer", "identity"):
        raise Usage
    return word


def place_of(count: str, word: str) -> tuple[int, int]:
    """A count of places, and a place below it."""
    many = number(count, 1, 65536)
    return many, number(word, 0, many - 1)


def sightings(words: Sequence[str]) -> list[Sighting]:
    """Pairs of a log and a time, 1 to 64 of them."""
    if not 2 <= len(words) <= 128 or len(words) % 2:
        raise Usage
    return [(key(log), number(time)) for log, time in zip(words[::2], words[1::2])]
