"""Following logs: what is taken and verified, and what a log that fails leaves."""

import dataclasses
import json
import threading
from collections.abc import Callable
from pathlib import Path

import pytest
from hypothesis import HealthCheck, given, settings, strategies as st

from clubcard.http import FetchError
from clubcard.publish.config import LogKind
from clubcard.publish.following import Follower
from clubcard.publish.paging import Pages
from clubcard.publish.spool import FIRST_RUN, Batch, LogRow
from fake_log import BEGIN, MMD, FakeClient, FakeLog, made_log, spelt
from fetching import Killed, Runs, killed_at, made_runs, renamed

KINDS: list[LogKind] = ["rfc6962", "static"]
both = pytest.mark.parametrize("kind", KINDS)
Change = Callable[[bytes], bytes | Exception]


@pytest.fixture(name="small")
def small_batches(monkeypatch: pytest.MonkeyPatch) -> None:
    """Batches and pages of few entries."""
    monkeypatch.setattr("clubcard.publish.following.MOST_ENTRIES", 50)
    monkeypatch.setattr("clubcard.publish.rfc6962.PAGE", 32)


@both
def test_a_log_that_grows(kind: LogKind, tmp_path: Path) -> None:
    log = made_log(kind, 5)
    runs = made_runs(tmp_path, log)
    for count in (0, 1, 250, 0, 3, 600):
        log.grow(count)
        log.time += 1
        (fetch,) = runs.fetch()
        assert fetch.followed and fetch.why is None and not runs.alarms
        runs.check()


@both
def test_an_empty_log(kind: LogKind, tmp_path: Path) -> None:
    log = made_log(kind)
    runs = made_runs(tmp_path, log)
    assert runs.fetch()[0].followed
    runs.check()
    log.grow(3)
    assert runs.fetch()[0].entries == 3
    runs.check()


@both
@pytest.mark.parametrize("first", [1, 44, 45, 256, 299])
def test_from_a_later_entry_on(kind: LogKind, first: int, tmp_path: Path) -> None:
    log = made_log(kind, 300)
    runs = made_runs(tmp_path, log, first=first)
    assert runs.fetch()[0].entries == 300 - first
    runs.check(first=first)
    last = first + FIRST_RUN - 1
    assert runs.rows()[0].bound == (BEGIN + 1000 * last + MMD if last < 300 else log.time)
    log.grow(20)
    assert runs.fetch()[0].entries == 20 and not runs.alarms
    runs.check(first=first)


@both
def test_the_greatest_time_of_the_first_entries_counts(
    kind: LogKind, tmp_path: Path, monkeypatch: pytest.MonkeyPatch
) -> None:
    """One of them that was merged within the delay is enough. As long as fewer are there the tree head's time counts,
    though they come in several runs."""
    monkeypatch.setattr("clubcard.publish.spool.FIRST_RUN", 5)
    log = made_log(kind, 10)
    for index, time in ((6, BEGIN - MMD), (9, BEGIN + 11_000)):
        leaf, extra = log.entries[index]
        log.entries[index] = leaf[:2] + time.to_bytes(8, "big") + leaf[10:], extra
    runs = made_runs(tmp_path, log, first=6)
    runs.fetch()
    bound = log.time
    assert runs.rows()[0].bound == bound
    log.grow(1)
    runs.fetch()
    assert runs.rows()[0].bound == min(bound, BEGIN + 11_000 + MMD) < bound + 1000
    log.grow(9)
    runs.fetch()
    assert runs.rows()[0].bound == min(bound, BEGIN + 11_000 + MMD)


@both
def test_from_an_entry_on_that_is_to_come(kind: LogKind, tmp_path: Path) -> None:
    log = made_log(kind, 10)
    runs = made_runs(tmp_path, log, first=12)
    assert runs.fetch()[0].followed
    assert (runs.rows()[0].bound, runs.rows()[0].front, runs.rows()[0].taken) == (None, None, 12)
    log.grow(2)
    assert runs.fetch()[0].followed
    assert (runs.rows()[0].bound, runs.rows()[0].taken) == (log.time, 12)
    log.grow(30)
    assert runs.fetch()[0].entries == 30 and not runs.alarms
    runs.check(first=12)


@both
def test_batches_before_the_end(kind: LogKind, tmp_path: Path, small: None) -> None:
    """Each is held against the tree head by a consistency proof."""
    log = made_log(kind, 900)
    log.most = 32
    runs = made_runs(tmp_path, log)
    assert runs.fetch()[0].entries == 900
    runs.check()
    assert len(list((tmp_path / "spool").iterdir())) == (15 if kind == "rfc6962" else 4)
    if kind == "rfc6962":
        proofs = [url for url in runs.client.urls if "get-sth-consistency" in url]
        assert proofs == [f"http://one/ct/v1/get-sth-consistency?first={at}&second=900" for at in range(64, 900, 64)]


@pytest.mark.parametrize("most", [1, 7, 64, 1000])
def test_short_answers(most: int, tmp_path: Path) -> None:
    log = made_log(size=700)
    log.most = most
    runs = made_runs(tmp_path, log)
    assert runs.fetch()[0].entries == 700
    runs.check()


def test_answers_that_end_at_multiples(tmp_path: Path) -> None:
    """As of logs that keep pages: an answer ends at the page's end."""
    log = made_log(size=700)
    answer = log.answer

    def paged(path: str, words: dict[str, str]) -> bytes:
        if path.endswith("get-entries"):
            words = {**words, "end": str(min(int(words["end"]), int(words["start"]) // 64 * 64 + 63))}
        return answer(path, words)

    runs = made_runs(tmp_path, log, first=10)
    runs.client.logs["one"] = mocked(log, paged)
    assert runs.fetch()[0].entries == 690
    runs.check(first=10)


def mocked(log: FakeLog, answer: Callable[[str, dict[str, str]], bytes]) -> FakeLog:
    """A log with other answers."""
    made = FakeLog(log.kind, log.key, log.name)
    made.__dict__.update(log.__dict__, answer=answer)
    return made


@both
def test_an_empty_tree_with_another_root(kind: LogKind, tmp_path: Path) -> None:
    log = made_log(kind)
    runs = made_runs(tmp_path, log)
    other = FakeLog(kind, log.key, "one")
    other.time, other.root = log.time, bytes(32)
    runs.client.logs["one"] = other
    assert "another root than its entries" in str(runs.fetch()[0].why)
    assert runs.rows()[0].head is None


@both
def test_an_older_head_is_no_news(kind: LogKind, tmp_path: Path) -> None:
    log = made_log(kind, 30)
    runs = made_runs(tmp_path, log)
    old = log.checkpoint() if kind == "static" else json.dumps(log.head()).encode()
    runs.fetch()
    log.grow(10)
    runs.fetch()
    before = runs.everything()
    # The same again, and an older one.
    for change in (lambda answer: answer, lambda _: old):
        runs.client.changes = {"get-sth": change, "checkpoint": change}
        assert runs.fetch()[0] == dataclasses.replace(runs.fetch()[0], followed=True, entries=0, why=None)
        assert not runs.alarms and runs.everything() == before


@both
def test_a_head_that_is_ahead(kind: LogKind, tmp_path: Path) -> None:
    log = made_log(kind, 30)
    runs = made_runs(tmp_path, log)
    assert runs.fetch(log.time - 60_000)[0].followed
    log.grow(3)
    before = runs.everything()
    assert not runs.fetch(log.time - 60_001)[0].followed
    assert runs.alarms == [
        "alarm log: one (http://one/) isn't followed in this epoch: its tree head is 60 s ahead of this run's moment"
    ]
    assert runs.everything() == before


def test_a_head_that_is_ahead_by_ages(tmp_path: Path) -> None:
    log = made_log(size=30)
    runs = made_runs(tmp_path, log)
    log.time = 2**63 - 1
    assert "ahead" in str(runs.fetch(BEGIN)[0].why)


def forked(log: FakeLog, begin: int) -> FakeLog:
    """A log of the same key whose entries are others from an index on."""
    other = FakeLog(log.kind, log.key, log.name)
    other.entries = log.entries[:begin] + [
        (leaf[:-3] + b"\1" + leaf[-2:], extra) for leaf, extra in log.entries[begin:]
    ]
    other.size, other.time = log.size, log.time
    return other


@both
@pytest.mark.parametrize("begin", [0, 39, 40])
def test_a_tree_that_forks(kind: LogKind, begin: int, tmp_path: Path) -> None:
    log = made_log(kind, 40)
    runs = made_runs(tmp_path, log)
    runs.fetch()
    before = runs.everything()
    log.grow(20)
    runs.client.logs["one"] = forked(log, begin)
    (fetch,) = runs.fetch()
    if begin == 40:
        # Whatever was shown before stays as it was.
        assert fetch.followed and fetch.entries == 20
        return
    assert "aren't those of its tree head" in str(fetch.why) and runs.everything() == before
    runs.client.logs["one"] = log
    assert runs.fetch()[0].followed
    runs.check()


@both
def test_heads_that_do_not_continue(kind: LogKind, tmp_path: Path) -> None:
    log = made_log(kind, 40)
    runs = made_runs(tmp_path, log)
    runs.fetch()
    before, other = runs.everything(), forked(log, 3)
    for entries, size, later, why in (
        (log.entries, 39, 1, "newer than the one of 40"),
        (log.entries, 39, 0, "two tree heads of the time"),
        (other.entries, 40, 0, "two tree heads of the time"),
        (other.entries, 40, 1, "two trees of 40 entries"),
    ):
        changed = FakeLog(log.kind, log.key, log.name)
        changed.entries, changed.size, changed.time = entries, size, log.time + later
        runs.client.logs["one"] = changed
        assert why in str(runs.fetch(log.time + 1)[0].why)
        assert len(runs.alarms) == 1 and runs.everything() == before


def changed_leaf(body: bytes) -> bytes:
    """An answer of get-entries with another byte in one leaf."""
    answer = json.loads(body)
    leaf = answer["entries"][0]["leaf_input"]
    answer["entries"][0]["leaf_input"] = ("B" if leaf[20] == "A" else "A").join((leaf[:20], leaf[21:]))
    return json.dumps(answer).encode()


FAULTS: list[tuple[LogKind, str, Change, str]] = [
    ("rfc6962", "get-sth", lambda _: b"<html>", "JSON"),
    ("rfc6962", "get-sth", lambda _: FetchError("status 429", 429), "status 429"),
    ("rfc6962", "get-sth", lambda _: json.dumps(made_log(size=60).head()).encode(), "by the log's key"),
    ("rfc6962", "get-entries", lambda _: b"<html>", "JSON"),
    ("rfc6962", "get-entries", lambda _: b'{"entries": []}', "no entries"),
    ("rfc6962", "get-entries", changed_leaf, "aren't those of its tree head"),
    ("rfc6962", "get-entries", lambda body: body.replace(b"leaf_input", b"leaf", 1), "without leaf_input"),
    ("static", "checkpoint", lambda _: b"<html>", "isn't an origin"),
    ("static", "checkpoint", lambda _: made_log("static", 60).checkpoint(), "by the log's key"),
    ("static", "tile/data", lambda _: b"<html>", "isn't of entries"),
    ("static", "tile/data", lambda body: body[:-1], "too few"),
    ("static", "tile/data", lambda body: body[:-130] + bytes([body[-130] ^ 1]) + body[-129:], "aren't those"),
    ("static", "issuer/", lambda _: b"", "another certificate"),
    ("static", "issuer/", lambda _: FetchError("status 404", 404), "status 404"),
]


@pytest.mark.parametrize("kind, message, change, why", FAULTS, ids=range(len(FAULTS)))
def test_a_log_that_fails(kind: LogKind, message: str, change: Change, why: str, tmp_path: Path) -> None:
    """Nothing of it is kept; the other log goes on; the next run makes up for it."""
    log, other = made_log(kind, 40), made_log("rfc6962", 10, name="two")
    runs = made_runs(tmp_path, log, other)
    runs.fetch()
    log.grow(20)
    other.grow(10)
    before = runs.rows()[0], runs.spooled(0)
    runs.client.changes = {f"//one/{'' if kind == 'static' else 'ct/v1/'}{message}": change}
    fetch, good = runs.fetch()
    assert why in str(fetch.why) and not fetch.followed and fetch.entries == 0 and good.followed
    assert runs.alarms == [f"alarm log: one (http://one/) isn't followed in this epoch: {fetch.why}"]
    assert (runs.rows()[0], runs.spooled(0)) == before
    runs.check(1)
    runs.client.changes = {}
    assert runs.fetch()[0].followed and not runs.alarms
    runs.check(0)
    runs.check(1)


@both
def test_what_nobody_foresaw_of_a_log(kind: LogKind, tmp_path: Path, monkeypatch: pytest.MonkeyPatch) -> None:
    """It stops no other log, and nothing of that log is kept."""
    runs = made_runs(tmp_path, made_log(kind, 40), made_log("rfc6962", 10, name="two"))
    follow = Follower.follow

    def failing(self: Follower, moment: int) -> str | None:
        if self.row.name == "one":
            raise IndexError("no such octet")
        return follow(self, moment)

    monkeypatch.setattr(Follower, "follow", failing)
    fetch, good = runs.fetch()
    assert not fetch.followed and fetch.entries == 0 and good.followed
    assert "its answer can't be read (IndexError: no such octet)" in runs.alarms[0]


@both
def test_what_came_before_a_fault_is_kept(kind: LogKind, tmp_path: Path, small: None) -> None:
    """It is held against the tree head by a consistency proof, and the next run goes on behind it."""
    log = made_log(kind, 1000)
    log.most = 10
    runs = made_runs(tmp_path, log)
    # The first entries come, and nothing from some index on.
    gone = "tile/data/002" if kind == "static" else "get-entries?start=3"
    runs.client.changes = {gone: lambda _: FetchError("status 429", 429)}
    (fetch,) = runs.fetch()
    assert fetch.why == "status 429" and 0 < fetch.entries < 1000
    row = runs.rows()[0]
    assert row.head is not None and row.taken == fetch.entries < row.head.size
    assert row.latest == BEGIN + 1000 * (row.taken - 1)
    assert [entry[0] for entry in runs.spooled()] == list(range(row.taken))
    # A new tree head comes meanwhile; it continues the one before by the log's proof.
    log.grow(100)
    runs.client.changes, runs.client.urls = {}, []
    assert runs.fetch()[0].entries == 1100 - row.taken
    runs.check()
    if kind == "rfc6962":
        assert "http://one/ct/v1/get-sth-consistency?first=1000&second=1100" in runs.client.urls
        assert not any("start=0" in url for url in runs.client.urls)


@both
def test_a_wrong_consistency_proof(kind: LogKind, tmp_path: Path, small: None) -> None:
    """A batch before the end isn't kept without it, nor is a new tree head in the middle of a fill."""
    log = made_log(kind, 700)
    log.most = 10
    runs = made_runs(tmp_path, log)
    wrong = json.dumps({"consistency": [spelt(bytes(32))] * 5}).encode()
    bad: dict[str, Change] = {"consistency": lambda _: wrong, "tile/1/": lambda body: bytes(len(body))}
    runs.client.changes = bad
    assert "aren't those of its tree head" in str(runs.fetch()[0].why)
    assert runs.rows()[0].taken == 0 and not runs.spooled()
    runs.client.changes = {"start=2": lambda _: FetchError("slow"), "tile/data/002": lambda _: FetchError("slow")}
    runs.fetch()
    before = runs.everything()
    log.grow(600)
    runs.client.changes = bad
    assert "doesn't continue the one of 700" in str(runs.fetch()[0].why)
    assert runs.everything() == before


def test_a_wrong_audit_path(tmp_path: Path) -> None:
    log = made_log(size=40)
    runs = made_runs(tmp_path, log, first=7)
    for wrong in ([spelt(bytes(32))] * 6, []):
        answer = json.dumps({"leaf_index": 7, "audit_path": wrong}).encode()
        runs.client.changes = {"get-proof-by-hash": lambda _: answer}
        assert "audit path of entry 7" in str(runs.fetch()[0].why)
        assert runs.rows()[0].front is None and not runs.spooled()


def test_other_entries_behind_the_first(tmp_path: Path) -> None:
    """Where the first entries aren't taken, the others are held against the tree head all the same."""
    log = made_log(size=40)
    runs = made_runs(tmp_path, log, first=7)
    runs.client.changes = {"get-entries?start=7&end=39": changed_leaf}
    assert "aren't those of its tree head" in str(runs.fetch()[0].why)
    assert not runs.spooled()


@both
def test_time_that_is_over(kind: LogKind, tmp_path: Path, small: None) -> None:
    log = made_log(kind, 1500)
    log.most = 10
    runs = made_runs(tmp_path, log)
    taken = 0
    while taken < 1500:
        times = iter(range(0, 100_000, 300))
        runs.clock = lambda: float(next(times))
        (fetch,) = runs.fetch()
        assert fetch.entries > 0 or not taken
        assert fetch.followed == (taken + fetch.entries == 1500) == (not runs.alarms)
        taken += fetch.entries
        if not fetch.entries:
            runs.clock = lambda: 0.0
            taken += runs.fetch()[0].entries
    runs.check()


def test_a_time_far_ahead_in_an_entry(tmp_path: Path) -> None:
    """It is no time by which a front of the entries would be known."""
    log = made_log(size=10)
    leaf, extra = log.entries[4]
    log.entries[4] = leaf[:2] + b"\xff" * 8 + leaf[10:], extra
    log.entries[5] = (b"\0\0" + bytes(8) + b"\0\7", b"extra")
    log.entries[6] = (b"\1", b"")
    runs = made_runs(tmp_path, log)
    runs.fetch()
    found = runs.spooled()
    assert [entry[1] for entry in found[4:7]] == [2**63 - 1, 0, 0]
    assert [entry[7] for entry in found[4:7]] == [None, "unread", "unread"]
    assert runs.rows()[0].latest == BEGIN + 9000


def test_an_unreadable_first_entry_bounds_nothing(tmp_path: Path) -> None:
    log = made_log(size=10)
    log.entries[3] = (b"\1", b"")
    runs = made_runs(tmp_path, log, first=3)
    runs.fetch()
    assert runs.rows()[0].bound == log.time


def test_config_changes(tmp_path: Path, monkeypatch: pytest.MonkeyPatch) -> None:
    monkeypatch.setattr("clubcard.publish.spool.FIRST_RUN", 1)
    log = made_log(size=10)
    runs = made_runs(tmp_path, log, first=3)
    runs.fetch()
    bound = runs.rows()[0].bound
    assert bound == BEGIN + 3000 + MMD and log.time == bound + 7000
    # The MMD never falls. Where it grows, so does what is derived of it, up to the time of the first tree head.
    for mmd, wanted, more in ((MMD - 5, MMD, 0), (MMD + 7, MMD + 7, 7), (2 * MMD, 2 * MMD, 7000)):
        log.grow(1)
        runs.config = renamed(runs.config, mmd=mmd, name="other")
        runs.fetch()
        row = runs.rows()[0]
        assert (row.mmd, row.bound, row.name) == (wanted, bound + more, "other")
    # Entries before those that were taken don't come any more.
    runs.config = renamed(runs.config, first=0)
    assert runs.fetch()[0].followed
    assert runs.alarms == ["alarm log: other: entries from 3 on are taken; CONFIG's `first` has to be that"]


def test_first_may_change_until_entries_are_taken(tmp_path: Path) -> None:
    log = made_log(size=10)
    runs = made_runs(tmp_path, log, first=10)
    runs.fetch()
    assert (runs.rows()[0].taken, runs.rows()[0].bound) == (10, log.time)
    runs.config = renamed(runs.config, first=4)
    assert runs.fetch()[0].entries == 6 and not runs.alarms
    runs.check(first=4)


@pytest.mark.parametrize("size, first", [(0, 0), (10, 10)])
def test_first_stays_where_something_may_be_covered(size: int, first: int, tmp_path: Path) -> None:
    """No entry is taken yet, but its tree head may cover some time; the entries between would be missing."""
    log = made_log(size=size)
    runs = made_runs(tmp_path, log, first=first)
    runs.fetch()
    runs.config = renamed(runs.config, first=first + 1)
    runs.fetch()
    assert len(runs.alarms) == 1 and f"entries from {first} on are taken" in runs.alarms[0]
    log.grow(5)
    runs.fetch()
    runs.check(first=first)


def test_a_full_disk(tmp_path: Path, monkeypatch: pytest.MonkeyPatch) -> None:
    """It is no fault of a log; the other logs stop too."""
    log, other = made_log(size=40), made_log(size=10, name="two")
    runs = made_runs(tmp_path, log, other)

    def full(_: int) -> None:
        raise OSError(28, "No space left on device")

    with monkeypatch.context() as patch:
        patch.setattr("os.fsync", full)
        with pytest.raises(OSError, match="No space left"):
            runs.fetch()
    runs.fetch()
    runs.check(0)
    runs.check(1)


def test_a_fault_that_is_no_logs_stops_the_others(tmp_path: Path, monkeypatch: pytest.MonkeyPatch, small: None) -> None:
    log, other = made_log(size=40), made_log(size=900, name="two")
    runs = made_runs(tmp_path, log, other)
    stopped, stop, commit = threading.Event(), Pages.stop, Batch.commit

    def told(self: Pages) -> None:
        stop(self)
        stopped.set()

    def full(self: Batch, row: LogRow) -> None:
        if row.name == "one":
            raise OSError(28, "No space left on device")
        commit(self, row)

    def wait(body: bytes) -> bytes:
        stopped.wait(10)
        return body

    monkeypatch.setattr(Pages, "stop", told)
    monkeypatch.setattr(Batch, "commit", full)
    runs.client.changes = {"//two/ct/v1/get-entries": wait}
    with pytest.raises(OSError, match="No space left"):
        runs.fetch()
    assert [row.taken for row in runs.rows()] == [0, 0]


def test_many_logs_share_few_places(tmp_path: Path, monkeypatch: pytest.MonkeyPatch) -> None:
    """Whatever one log waits for, the others go on."""
    monkeypatch.setattr("clubcard.publish.paging.MOST_MORE", 2)
    logs = [made_log(kind, 400, name=f"log{place}") for place, kind in enumerate(KINDS * 10)]
    for log in logs:
        log.most = 40
    runs = made_runs(tmp_path, *logs)
    runs.client.changes = {"//log2/ct/v1/get-entries?start=2": lambda _: FetchError("status 429", 429)}
    assert sum(fetch.followed for fetch in runs.fetch()) == 19
    runs.client.changes = {"//log4/ct/v1/get-sth": lambda _: b""}
    for log in logs:
        log.grow(200)
    assert sum(fetch.followed for fetch in runs.fetch()) == 19
    for place in (0, 1, 2, 3, 5, 19):
        runs.check(place)


@both
def test_kills(kind: LogKind, tmp_path: Path, small: None) -> None:
    """A run that is killed at any step, and begun again, ends as one that wasn't killed."""
    log = made_log(kind, 300)
    step = 0
    while True:
        runs = made_runs(tmp_path / str(step), log, first=step % 3)
        try:
            with killed_at(step):
                runs.fetch()
        except Killed:
            runs.fetch()
            runs.check(first=step % 3)
            step += 1
            continue
        break
    assert step > 5


GROWTHS = st.tuples(
    st.integers(0, 300), st.sampled_from(["", "", "kill", "429", "fork", "leaf", "old"]), st.integers(0, 30)
)


@settings(
    max_examples=25, deadline=None, suppress_health_check=[HealthCheck.function_scoped_fixture, HealthCheck.too_slow]
)
@given(kind=st.sampled_from(KINDS), first=st.integers(0, 300), growths=st.lists(GROWTHS, min_size=1, max_size=5))
def test_histories(
    kind: LogKind,
    first: int,
    growths: list[tuple[int, str, int]],
    tmp_path_factory: pytest.TempPathFactory,
    small: None,
) -> None:
    """Whatever happened on the way, a run without a fault ends with all entries."""
    log = made_log(kind)
    log.most = 30
    runs = made_runs(tmp_path_factory.mktemp("state"), log, first=first)
    for count, event, place in growths:
        old = log.checkpoint() if kind == "static" else json.dumps(log.head()).encode()
        log.grow(count)
        happen(runs, log, event, place, old)
        taken = runs.rows()[0].taken if runs.rows() else first
        assert [entry[0] for entry in runs.spooled()] == list(range(first, taken))
        runs.client = FakeClient(log)
    log.grow(max(0, first + 1 - log.size))
    assert runs.fetch()[0].followed and not runs.alarms
    runs.check(first=first)


def happen(runs: Runs, log: FakeLog, event: str, place: int, old: bytes) -> None:
    """One run in which something may go wrong."""
    changes: dict[str, dict[str, Change]] = {
        "429": {f"get-entries?start={place}": lambda _: FetchError("429"), "data/001": lambda _: FetchError("429")},
        "leaf": {"get-entries": lambda body: body.replace(b"AA", b"BB", 3), "data/": lambda body: body[:20] + bytes(9)},
        "old": {"get-sth": lambda _: old, "checkpoint": lambda _: old},
    }
    runs.client.changes = changes.get(event, {})
    head = runs.rows()[0].head if runs.rows() else None
    if event == "fork" and head is not None and head.size > 0:
        runs.client.logs["one"] = forked(log, min(place, head.size - 1))
    try:
        with killed_at(place if event == "kill" else 10**9):
            runs.fetch()
    except Killed:
        pass
