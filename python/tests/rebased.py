"""Worlds whose chain begins anew, also without issuers."""

from collections.abc import Callable, Mapping, Sequence
from pathlib import Path
from typing import Any

from clubcard.engine import Engine, WrongWords
from clubcard.publish import chain
from spooled import Seen, Spooled, at


def world_of(folder: Path, issuers: Sequence[int] = (0, 1), logs: Sequence[int] = (0,), **more: Any) -> Spooled:
    """A world of some issuers and logs."""
    return Spooled.of(folder, issuers, logs, **more)


def go_on(world: Spooled, hours: Sequence[float], lists: Mapping[int, Sequence[bytes]]) -> list[chain.EpochRow]:
    """So many epochs, all alike."""
    return [world.epoch(hour, lists).row for hour in hours]


def kinds(row: chain.EpochRow) -> list[str]:
    return [alarm.kind for alarm in row.alarms]


def texts(row: chain.EpochRow, kind: str) -> str:
    return "\n".join(alarm.text for alarm in row.alarms if alarm.kind == kind)


def away_world(folder: Path, **more: int) -> tuple[Spooled, list[Seen]]:
    """An issuer was enrolled, is away in the second epoch, and its log goes on."""
    words: dict[str, Any] = {"rebase_after": 2} | more
    world = world_of(folder, **words)
    entries = [Seen(0, at(1), 1, b"\x01"), Seen(0, at(5), 1, b"\x02"), Seen(0, at(5), 0, b"\x03")]
    world.write(entries)
    world.epoch(4, {0: [], 1: [b"\x01"]})
    return world, entries


class Old(Engine):
    """A program that has no `rebase-without`."""

    def _run(self, read: Callable[[Sequence[str]], Any], command: str, *words: Any) -> Any:
        if command == "rebase-without":
            raise WrongWords(command, "usage")
        return super()._run(read, command, *words)
