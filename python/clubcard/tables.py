"""Reading the tables of CONFIG: each value by its type, and each fault with its place and a remedy."""

import difflib
import tomllib
from collections.abc import Collection, Mapping
from dataclasses import dataclass
from pathlib import Path
from typing import Any
from urllib.parse import urlsplit

import httpx

from .times import DAY, SECOND, duration

MOST_DURATION = 36500 * DAY


class ConfigError(Exception):
    """CONFIG can't be used. The text names the file, the place in it, what is wrong and what to do."""


def read_config(path: Path) -> dict[str, object]:
    """What stands in CONFIG. Raises ConfigError where it can't be read or is no TOML."""
    try:
        return tomllib.loads(path.read_text(encoding="utf-8"))
    except OSError as fault:
        raise ConfigError(f"{path}: it can't be read ({fault.strerror}): look at its name and rights") from None
    except UnicodeDecodeError as fault:
        raise ConfigError(f"{path}: byte {fault.start} is no UTF-8: save it in UTF-8") from None
    except (ValueError, RecursionError) as fault:
        raise ConfigError(f"{path}: it is no TOML: {fault}: texts stand in quotation marks") from None


def url_fault(url: str) -> str | None:
    """Why a text is no URL that this package asks, or None where it is one."""
    try:
        parts = urlsplit(url)
        port = parts.port
        httpx.URL(url)
    except (ValueError, httpx.InvalidURL) as fault:
        return f"it can't be read ({fault})"
    if not url.isascii() or not url.isprintable() or " " in url:
        return "it has characters that no URL has: write these as %XX"
    if parts.scheme not in ("http", "https"):
        return "it begins neither with http:// nor with https://"
    if not parts.hostname or port == 0:
        return "it names no host, or the port 0"
    if parts.username is not None or parts.password is not None:
        return "it holds a user or a password, which the reports would show"
    return "it has a fragment (#)" if "#" in url else None


@dataclass(frozen=True)
class Table:
    """A table of CONFIG, and where it stands."""

    place: str
    """CONFIG's name, and the table in it."""
    values: Mapping[str, Any]

    def fault(self, text: str) -> ConfigError:
        """What is wrong in this table."""
        return ConfigError(f"{self.place}: {text}")

    def wrong(self, key: str, text: str) -> ConfigError:
        """What is wrong with a key's value."""
        return self.fault(f"{key}: {text}")

    def only(self, known: Collection[str]) -> None:
        """Refuses each key that isn't known, and names the nearest known one."""
        for key in self.values:
            if key not in known:
                nearest = difflib.get_close_matches(key, known, n=1, cutoff=0.0)
                raise self.fault(f'there is no key "{key}" here: is it "{nearest[0]}"? Else take it out')

    def value(self, key: str, kind: type, said: str, default: Any = None) -> Any:
        """A key's value of a type. Without a default it has to stand there."""
        value = self.values.get(key, default)
        if value is None:
            raise self.fault(f'the key "{key}" is missing: write {key} = {said}')
        if not isinstance(value, kind) or isinstance(value, bool):
            raise self.wrong(key, f"{value!r} isn't of its type: write {key} = {said}")
        return value

    def text(self, key: str, said: str, default: str | None = None) -> str:
        """A text that isn't empty, of printable characters."""
        value = str(self.value(key, str, said, default))
        if not value.strip() or not value.isprintable():
            raise self.wrong(key, f"{value!r} is empty or has control characters: write {key} = {said}")
        return value

    def number(self, key: str, default: int, low: int, high: int) -> int:
        """A number within bounds, both included."""
        value = int(self.value(key, int, str(default), default))
        if not low <= value <= high:
            raise self.wrong(key, f"{value} isn't within {low} and {high}: {default} is usual")
        return value

    def duration(self, key: str, default: str, least: int = 0) -> int:
        """A duration in milliseconds."""
        value = self.text(key, f'"{default}"', default)
        found = duration(value)
        if found is None or not least <= found <= MOST_DURATION:
            why = f'a duration is a number and s, m, h or d, at least "{least // SECOND}s" and at most "36500d"'
            raise self.wrong(key, f'{value!r}: {why}; "{default}" is usual')
        return found

    def url(self, key: str, said: str) -> str:
        """A URL."""
        return self.tested(key, self.text(key, said))

    def tested(self, key: str, url: str) -> str:
        """A URL of this key's value, which is tested."""
        why = url_fault(url)
        if why is not None:
            raise self.wrong(key, f"{url!r} is no URL that can be asked: {why}")
        return url

    def texts(self, key: str, said: str) -> list[str]:
        """A list of different texts, at least one."""
        values = self.value(key, list, said)
        if not values:
            raise self.wrong(key, f"it is empty: write {key} = {said}")
        for value in values:
            if not isinstance(value, str) or not value.strip() or not value.isprintable():
                raise self.wrong(key, f"{value!r} is no text: write {key} = {said}")
            if values.count(value) > 1:
                raise self.wrong(key, f"{value!r} stands twice: write it once")
        return list(values)

    def tables(self, key: str) -> list["Table"]:
        """The tables [[key]], also none. Each goes by its number and its name."""
        found = self.values.get(key, [])
        if not isinstance(found, list) or not all(isinstance(each, dict) for each in found):
            raise self.fault(f'"{key}" isn\'t a list of tables: write [[{key}]] above each')
        return [Table(f"{self.place}: [[{key}]] {_called(i, each)}", each) for i, each in enumerate(found, 1)]


def _called(number: int, values: Mapping[str, Any]) -> str:
    """How people find a table: by its number among those of its kind, and its name."""
    name = values.get("name")
    return f'{number} "{name}"' if isinstance(name, str) and name.isprintable() else str(number)
