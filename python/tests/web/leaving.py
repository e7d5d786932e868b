"""Leaving a rule of the publisher out, in the least world that shows what it is for."""

import functools
from collections.abc import Callable
from dataclasses import dataclass, field, replace
from pathlib import Path
from typing import Any

import pytest

from clubcard.publish import epoch, making, recording, rules

from .limited import Limited
from .play import Play
from .world import LONG, Cert, Entry, Issuer, Log, World, at

Patch = Callable[[pytest.MonkeyPatch], None]


def cert(serial: int, time: float, merged: float | None = None, on: float | None = None, **more: Any) -> Cert:
    """A certificate of issuer 0 with a timestamp of log 0, if nothing else is said; revoked for good from `on` on."""
    log, issuer = more.pop("log", 0), more.pop("issuer", 0)
    entry = Entry(log, at(time) + serial, at(time if merged is None else merged) + serial)
    return Cert(issuer, serial, LONG, (entry,), () if on is None else ((at(on), None),), **more)


def world(epochs: int, certs: list[Cert], *things: Log | Issuer, **more: Any) -> World:
    """Epochs each four hours. Where no log or issuer is given there is one that keeps its word."""
    logs = tuple(thing for thing in things if isinstance(thing, Log)) or (Log(),)
    authorities = tuple(thing for thing in things if isinstance(thing, Issuer)) or (Issuer(),)
    moments = tuple(at(4 * (number + 1)) for number in range(epochs))
    return replace(World(moments, logs, authorities, tuple(certs), rebase_after=20), **more)


@dataclass(frozen=True)
class Case:
    """A rule, its least world, what leaves it out, and what is seen then: wrong (an answer isn't what the authority
    says), outage (no epoch is made), or an alarm's kind."""

    name: str
    world: World
    patch: Patch
    sees: str
    limits: making.Limits = field(default_factory=making.Limits)
    still: frozenset[str] = frozenset()
    """Alarms that come with the rule too."""


def instead(*pairs: tuple[Any, str, Any]) -> Patch:
    """Puts other functions into the places of these: module or class, name, function."""

    def patch(monkeypatch: pytest.MonkeyPatch) -> None:
        for holder, name, function in pairs:
            monkeypatch.setattr(holder, name, function)

    return patch


def rewritten(name: str, *pairs: tuple[str, str]) -> Patch:
    """Changes the text of a query of the rules."""

    def patch(monkeypatch: pytest.MonkeyPatch) -> None:
        text = getattr(rules, name)()
        for old, new in pairs:
            assert old in text, f"the query {name} has no {old}"
            text = text.replace(old, new, 1)
        monkeypatch.setattr(rules, name, lambda: text)

    return patch


def dropping(condition: str) -> Patch:
    """Forgets waiting entries behind each epoch, where a condition holds."""
    forget = recording.forget

    def forgetting(step: making.Making, generation: int, cut: int) -> None:
        forget(step, generation, cut)
        step.db.execute(f"DELETE FROM entry WHERE epoch IS NULL AND {condition}")

    return instead((recording, "forget", forgetting))


COVERED = "EXISTS (SELECT 1 FROM temp.covered c WHERE c.log = entry.log AND entry.time BETWEEN c.low AND c.high)"
ENROLLED = "issuer IN (SELECT issuer FROM temp.enrolled)"


def seen(play: Play) -> set[str]:
    """What a world shows: wrong, outage, and the kinds of its alarms."""
    kinds: set[str] = {alarm.kind for outcome in play.outcomes for alarm in outcome.alarms}
    kinds |= {"wrong"} if play.findings or play.by_chance else set()
    return kinds | ({"outage"} if any(outcome.status not in (0, 10) for outcome in play.outcomes) else set())


def played(case: Case, folder: Path, monkeypatch: pytest.MonkeyPatch) -> Play:
    limited = functools.partial(epoch.make_epoch, limits=case.limits)
    monkeypatch.setattr("clubcard.publish.run.make_epoch", limited)
    with Play(case.world, folder) as play:
        play.engine = Limited(case.limits.entries)
        return play.play()


def check(case: Case, folder: Path, monkeypatch: pytest.MonkeyPatch) -> None:
    """With the rule the world shows nothing but what the case says; without it, what is wrong then."""
    whole = played(case, folder / "whole", monkeypatch)
    # By a timestamp that came too late any answer may come.
    free = {"wrong"} if "late" in case.still else set()
    assert seen(whole) - free <= case.still, whole.told()
    case.patch(monkeypatch)
    without = played(case, folder / "without", monkeypatch)
    assert case.sees in seen(without), without.told()


def names(cases: list[Case]) -> list[str]:
    """How pytest names them."""
    return [case.name.replace(" ", "-") for case in cases]
