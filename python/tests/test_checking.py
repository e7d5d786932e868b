"""The store that clients will have says what is true, before anything names it."""

from pathlib import Path

import pytest

from clubcard.engine import Engine, PassedLimit
from clubcard.publish import checking
from clubcard.publish.epoch import NoEpoch
from spooled import Seen, Spooled, at, dumped

ONE, TWO = b"\x01", b"\x02"


def test_a_store_that_says_otherwise(tmp_path: Path, monkeypatch: pytest.MonkeyPatch) -> None:
    """Nothing is published where the questions that are asked in place of an audit find another answer."""
    world = Spooled.of(tmp_path, (0,), (0,))
    world.epoch(4, {0: [ONE]})
    world.write([Seen(0, at(5), 0, ONE), Seen(0, at(5), 0, TWO)])
    world.heads(at(8))
    before = dumped(world)
    with monkeypatch.context() as patched:
        patched.setattr(Engine, "audit", lambda *words: passed_limit())
        patched.setattr("clubcard.publish.recording.revoke", lambda *words: None)
        with pytest.raises(NoEpoch, match="the new store says REVOKED of issuer .* serial 01, .* the state GOOD"):
            world.make(at(8), {0: [ONE]})
    assert dumped(world) == before
    assert world.make(at(8), {0: [ONE]}).row.shown == 2


def passed_limit() -> None:
    raise PassedLimit("audit", "limit entries 4194304 job")


def test_more_than_one_audit_takes(tmp_path: Path, monkeypatch: pytest.MonkeyPatch) -> None:
    """Then what is new is asked of the store."""
    asked = []
    ask = checking.ask
    monkeypatch.setattr(Engine, "audit", lambda *words: passed_limit())
    monkeypatch.setattr(checking, "ask", lambda *words: asked.append(ask(*words)))
    world = Spooled.of(tmp_path, (0,), (0,))
    world.write([Seen(0, at(hour), 0, bytes([hour])) for hour in range(1, 7)])
    world.epoch(4, {0: [ONE]})
    world.epoch(8, {0: [ONE, TWO]})
    assert asked == [3 + 1, 3 + 1]
