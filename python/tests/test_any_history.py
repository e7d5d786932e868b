"""Random histories of small worlds: state, ledger and store are as a model of the rules says."""

from collections.abc import Sequence
from pathlib import Path
from typing import Any

import pytest
from hypothesis import HealthCheck, given, settings
from hypothesis import strategies as some

from clubcard.places import Places, names_of
from clubcard.publish import chain
from clubcard.publish.config import Config
from clubcard.publish.epoch import Limits
from modelled import Model
from spooled import HOUR, MMD, T, Seen, Spooled, at, config_of, key_of, log_of

LOGS = (0, 1)
ISSUERS = (0, 1, 2)
PLACES = (None, None, Places("issuer", 2, {"0000": 2}), Places("identity", 2))


@some.composite
def events(draw: some.DrawFn) -> dict[str, Any]:
    """A small world: what its logs merge and when, and what each epoch meets."""
    epochs = draw(some.integers(2, 7))
    entry = some.builds(
        lambda log, hours, delay, issuer, serial, life: (
            at(hours) + delay,
            Seen(
                log, at(hours), issuer, bytes([5, serial]), None if life is None else T // 1000 + (hours + life) * 3600
            ),
        ),
        some.sampled_from(LOGS),
        some.integers(0, 4 * epochs + 3),
        some.sampled_from([0, 0, 1, MMD, MMD + 1, 5 * HOUR, 9 * HOUR]),
        some.sampled_from(ISSUERS),
        some.integers(0, 5),
        some.sampled_from([None, 2, 6, 12, 30_000, 30_000]),
    )
    one = some.fixed_dictionaries(
        {
            "logs": some.lists(
                some.sampled_from(["good", "good", "good", "silent", "front", "gone"]), min_size=2, max_size=2
            ),
            "lists": some.dictionaries(
                some.sampled_from(ISSUERS), some.lists(some.integers(0, 5), max_size=3), max_size=3
            ),
            "unnamed": some.sampled_from([(), (), (), (2,), (1, 2)]),
        }
    )
    return {
        "tree": draw(
            some.lists(entry, max_size=24, unique_by=lambda each: (each[1].log, each[1].time, each[1].serial))
        ),
        "epochs": draw(some.lists(one, min_size=epochs, max_size=epochs)),
        "places": draw(some.sampled_from(PLACES)),
        "most": draw(some.sampled_from([2, 5, 4_194_304])),
        "words": {
            "rebase_after": draw(some.sampled_from([1, 2, 3, 40, 40])),
            "patience": draw(some.integers(1, 3)),
            "max_away": draw(some.sampled_from([3, 9, 100])) * HOUR,
            "grace": draw(some.sampled_from([0, 5])) * HOUR,
        },
    }


def fetch(world: Spooled, log: int, tree: Sequence[Seen], have: int, moment: int, kind: str) -> int:
    """What a log brings to an epoch; how many of its entries are there then."""
    if kind in ("silent", "gone"):
        return have
    new = list(tree[have:])
    taken = new[: len(new) // 2] if kind == "front" else new
    world.write(taken)
    world.head(log, moment, len(tree))
    return have + len(taken)


def config_at(folder: Path, one: dict[str, Any], words: dict[str, Any]) -> Config:
    issuers = [issuer for issuer in ISSUERS if issuer not in one["unnamed"]]
    logs = [log for log, kind in zip(LOGS, one["logs"]) if kind != "gone"]
    return config_of(folder, issuers, logs, **words)


@settings(max_examples=60, deadline=None, suppress_health_check=[HealthCheck.too_slow])
@given(events())
def test_any_history(tmp_path_factory: pytest.TempPathFactory, happens: dict[str, Any]) -> None:
    """Whatever logs, authorities and the operator do, with places and without: state, ledgers and stores are as the
    rules say, and the published stores say the truth of whatever a client may ask about."""
    folder = tmp_path_factory.mktemp("history")
    placed = happens["words"] | {"places": happens["places"]}
    world = Spooled.of(folder, ISSUERS, LOGS, **placed)
    world.limits = Limits(entries=happens["most"])
    model, have = Model(**happens["words"]), {log: 0 for log in LOGS}
    newest: dict[int, int] = {}
    standing: dict[int, tuple[int, int]] = {}
    for place, one in enumerate(happens["epochs"]):
        moment = at(4 * place + 4)
        world.config = config_at(folder, one, placed)
        tree = sorted((each for each in happens["tree"] if each[0] <= moment), key=lambda each: int(each[0]))
        for log, kind in zip(LOGS, one["logs"]):
            merged = [entry for _, entry in tree if entry.log == log]
            before, have[log] = have[log], fetch(world, log, merged, have[log], moment, kind)
            model.waiting += merged[before : have[log]]
            newest |= {log: moment} if kind in ("good", "front") else {}
        model.heads = list(newest.values())
        lists = {i: [bytes([5, s]) for s in serials] for i, serials in one["lists"].items() if i not in one["unnamed"]}
        row = world.make(moment, lists).row
        covered = {log: (each.low, each.high) for each in row.coverage for log in LOGS if log_of(log) == each.log}
        fits = world.kinds().isdisjoint({"room"})
        heads = [log for log, kind in zip(LOGS, one["logs"]) if kind == "good"]
        assert not fits or all(covered[log] == (0, moment - MMD) for log in heads)
        enrolled = {each.issuer for each in row.issuers if each.enrolled}
        assert not fits or enrolled == {key_of(issuer) for issuer in lists}
        assert row.shown <= happens["most"] * len(names_of(happens["places"]))
        assert all(
            low <= standing[log][0] and high >= standing[log][1]
            for log, (low, high) in covered.items()
            if log in standing
        )
        standing = covered
        lists = {issuer: listed for issuer, listed in lists.items() if key_of(issuer) in enrolled}
        model.epoch(moment, covered, lists, [i for i in ISSUERS if i not in one["unnamed"]])
        model.compare(world)
        owed = model.owed(tree, moment)
        assert all(entry.identity in model.items and not model.is_late(entry) for entry in owed)
        asked = model.accepted + owed
        truth = ["revoked" if model.items[entry.identity].revoked else "good" for entry in asked]
        assert world.ask(asked) == truth
    assert len(chain.history(world.state, 99)) == len(happens["epochs"])
    world.state.close()
