"""What holds a rebase back, for how long, and without whom a chain begins anew."""

from dataclasses import replace
from pathlib import Path

import pytest

from clubcard.publish import chain, rules
from clubcard.publish.epoch import Limits, NoEpoch
from made import PROGRAM
from rebased import Old, away_world, go_on, kinds, texts, world_of
from spooled import HOUR, MMD, T, Seen, at, key_of

ONE, TWO = b"\x01", b"\x02"


# ---------- what holds it back ----------
def test_held_back_until_it_is_enrolled(tmp_path: Path) -> None:
    world, entries = away_world(tmp_path)
    rows = go_on(world, [8, 12], {0: []})
    assert [(row.rebased, kinds(row)) for row in rows] == [(False, ["held"])] * 2
    assert "1 entries of Issuer 1 (" in texts(rows[0], "held") and "in epoch 1 of 8" in texts(rows[0], "held")
    assert "in epoch 2 of 8" in texts(rows[1], "held")
    row = world.epoch(16, {0: [], 1: [TWO]}).row
    assert row.rebased and not row.alarms
    assert world.ask(entries) == ["revoked", "revoked", "good"]


def test_without_an_issuer_when_patience_ends(tmp_path: Path) -> None:
    """Its certificates read not-enrolled; once it is back all its entries are accepted again, the old ones too."""
    world, entries = away_world(tmp_path, patience=3)
    rows = go_on(world, [8, 12, 16], {0: []})
    assert [kinds(row) for row in rows] == [["held"], ["held"], ["without"]]
    assert rows[2].rebased and (rows[2].universe, rows[2].revoked, rows[2].waiting) == (1, 0, 2)
    assert "Issuer 1 (" in texts(rows[2], "without")
    assert world.ask(entries) == ["not-enrolled", "not-enrolled", "good"]
    row = world.epoch(20, {0: [], 1: [TWO]}).row
    assert row.shown == 2 and world.ask(entries) == ["good", "revoked", "good"]


def test_without_an_issuer_that_is_away_for_too_long(tmp_path: Path) -> None:
    """At once, where nobody else holds the rebase back."""
    world, entries = away_world(tmp_path, max_away=8 * HOUR)
    rows = go_on(world, [8, 12, 16], {0: []})
    assert [kinds(row) for row in rows] == [["held"], ["held"], ["without"]]
    assert world.ask(entries) == ["not-enrolled", "not-enrolled", "good"]


def test_without_an_issuer_that_config_drops(tmp_path: Path) -> None:
    world, entries = away_world(tmp_path)
    world.config = replace(world.config, issuers=world.config.issuers[:1])
    row = world.epoch(8, {0: []}).row
    assert row.rebased and kinds(row) == ["without"] and "which CONFIG doesn't name" in texts(row, "without")
    assert world.ask(entries) == ["not-enrolled", "not-enrolled", "good"]


def test_one_that_is_gone_waits_with_one_that_is_not(tmp_path: Path) -> None:
    world = world_of(tmp_path, (0, 1, 2), rebase_after=2)
    entries = [Seen(0, at(5), issuer, ONE) for issuer in (0, 1, 2)]
    world.write(entries)
    world.epoch(4, {0: [], 1: [], 2: []})
    world.config = replace(world.config, issuers=world.config.issuers[:2])
    row = world.epoch(8, {0: []}).row
    assert not row.rebased and "Issuer 1" in texts(row, "held") and key_of(2).hex() not in texts(row, "held")
    row = world.epoch(12, {0: [], 1: []}).row
    assert row.rebased and key_of(2).hex() in texts(row, "without")
    assert world.ask(entries) == ["good", "good", "not-enrolled"]


@pytest.mark.parametrize("case", ["late", "expired", "kept", "uncovered", "never enrolled"])
def test_what_doesnt_hold_it_back(tmp_path: Path, case: str) -> None:
    """What is late already, what the rebase prunes or keeps, what isn't covered, and whose issuer no part has."""
    world = world_of(tmp_path, (0, 1), (0, 1), rebase_after=2)
    world.write([Seen(0, at(1), 1, ONE)])
    world.head(0, at(4))
    world.make(at(4), {0: []} if case == "never enrolled" else {0: [], 1: [ONE]})
    entry = {
        "late": Seen(0, at(1), 1, TWO),
        "expired": Seen(0, at(5), 1, TWO, T // 1000 + 5 * 3600),
        "kept": Seen(1, at(5), 1, ONE),
        "uncovered": Seen(0, at(7) + 1, 1, TWO),
        "never enrolled": Seen(0, at(5), 1, TWO),
    }[case]
    world.write([entry])
    row = world.epoch(8, {0: []}).row
    assert row.rebased and not row.alarms
    row = world.epoch(12, {0: [], 1: [TWO]}).row
    assert kinds(row) == (["late"] if case == "late" else [])
    assert case in ("late", "expired") or world.ask([entry]) == ["revoked"]


def test_an_identity_that_the_rebase_prunes_holds_it_back(tmp_path: Path) -> None:
    """Where an entry of it waits that hasn't expired."""
    world = world_of(tmp_path, (0, 1), (0,), rebase_after=2)
    entries = [Seen(0, at(1), 1, ONE, T // 1000 + 5 * 3600), Seen(0, at(5), 1, ONE)]
    world.write(entries)
    world.epoch(4, {0: [], 1: []})
    row = world.epoch(8, {0: []}).row
    assert not row.rebased and kinds(row) == ["held"]
    row = world.epoch(12, {0: [], 1: [ONE]}).row
    assert row.rebased and world.ask(entries) == ["revoked", "revoked"]


def test_an_issuer_that_only_the_first_part_has(tmp_path: Path) -> None:
    """The snapshot of a chain that began anew has a block of each issuer of the old one: its entries hold the next
    rebase back too."""
    world = world_of(tmp_path, rebase_after=1)
    world.write([Seen(0, at(1), 1, ONE)])
    world.epoch(4, {0: [], 1: []})
    row = world.epoch(8, {0: []}).row
    assert row.rebased and row.generation == 3
    entry = Seen(0, at(9), 1, TWO)
    world.write([entry])
    row = world.epoch(12, {0: []}).row
    assert not row.rebased and kinds(row) == ["held"]
    row = world.epoch(16, {0: [], 1: [TWO]}).row
    assert row.rebased and world.ask([entry]) == ["revoked"]


def test_a_rule_that_is_left_out_is_seen(tmp_path: Path, monkeypatch: pytest.MonkeyPatch) -> None:
    """Where nothing holds a rebase back, the entries that wait are late for ever."""
    monkeypatch.setattr(rules, "holding", lambda: "SELECT 1, 1 WHERE 0")
    world, _ = away_world(tmp_path)
    assert world.epoch(8, {0: []}).row.rebased
    assert kinds(world.epoch(12, {0: [], 1: [TWO]}).row) == ["late"]


def test_a_log_that_broke_its_word_heals_with_its_issuer(tmp_path: Path) -> None:
    """A late entry waits; where the chain begins anew without its issuer, it is as good as any other."""
    world, entries = away_world(tmp_path, rebase_after=3, patience=1)
    late, new = Seen(0, at(1), 1, b"\x09"), Seen(0, at(9), 1, b"\x0a")
    world.write([late])
    assert kinds(world.epoch(8, {0: [], 1: []}).row) == ["late"]
    world.write([new])
    row = world.epoch(12, {0: []}).row
    assert row.rebased and kinds(row) == ["without"]
    assert world.state.db.execute("SELECT count(late) FROM entry").fetchone() == (0,)
    row = world.epoch(16, {0: [], 1: [b"\x09"]}).row
    assert not row.alarms and world.ask([late, entries[0], new]) == ["revoked", "good", "good"]


# ---------- the 64th part ----------
def test_no_authority_brings_the_chain_to_its_end(tmp_path: Path) -> None:
    """An issuer that CONFIG drops, and which still issues, over more epochs than a chain has parts."""
    world = world_of(tmp_path, rebase_after=60, patience=50)
    world.write([Seen(0, at(1), 1, ONE)])
    world.epoch(4, {0: [], 1: []})
    for step in range(2, 70):
        world.write([Seen(0, at(4 * step) - MMD, 1, bytes([1, step]))])
        row = world.epoch(4 * step, {0: []}).row
        assert row.parts <= 64
        assert kinds(row) in ([], ["held"], ["without"])
    assert row.generation == 2 and row.epoch == 69


def test_a_full_chain(tmp_path: Path) -> None:
    """It begins anew before the epoch, whoever waits."""
    world, entries = away_world(tmp_path, rebase_after=40)
    world.limits = Limits(parts=2)
    world.epoch(8, {0: []})
    row = world.epoch(12, {0: []}).row
    assert (row.generation, row.parts, kinds(row)) == (2, 2, ["without"])
    before = chain.history(world.state, 99)[1]
    assert (before.generation, before.rebased, kinds(before)) == (2, True, ["without"])
    assert world.ask(entries) == ["not-enrolled", "not-enrolled", "good"]


def test_a_program_that_cant_leave_issuers_out(tmp_path: Path, monkeypatch: pytest.MonkeyPatch) -> None:
    """It is an alarm, and epochs go on, up to the last part that a chain has."""
    world, entries = away_world(tmp_path, patience=1)
    world.engine = Old(PROGRAM)
    world.limits = Limits(parts=3)
    rows = go_on(world, [8, 12], {0: []})
    assert [(row.rebased, row.parts, kinds(row)) for row in rows] == [(False, 2, ["held"]), (False, 3, ["held"])]
    assert "clubcard rebase-without: usage (status 2)" in texts(rows[0], "held")
    with pytest.raises(NoEpoch, match="the chain has 3 parts, and couldn't begin anew.*rebase-without: usage"):
        world.epoch(16, {0: []})
    assert world.ask(entries) == ["revoked", "not-enrolled", "good"]


def test_more_issuers_than_one_call_leaves_out(tmp_path: Path) -> None:
    world = world_of(tmp_path, (0, 1, 2, 3), rebase_after=2, patience=1)
    world.limits = Limits(without=2)
    entries = [Seen(0, at(5), issuer, ONE) for issuer in range(4)]
    world.write(entries)
    world.epoch(4, {0: [], 1: [], 2: [], 3: []})
    row = world.epoch(8, {0: []}).row
    assert row.rebased and kinds(row) == ["without"] * 3
    assert world.ask(entries) == ["good"] + ["not-enrolled"] * 3
    row = world.epoch(12, {each: [ONE] for each in range(4)}).row
    assert row.shown == 3 and not [kind for kind in kinds(row) if kind != "without"]
    world.state.sweep()
    assert world.ask(entries) == ["revoked"] * 4
