"""A log by the messages of RFC 6962: what is asked, and what is read and refused of the answers."""

import json
from collections.abc import Callable
from typing import Any

import pytest
from hypothesis import given, strategies as st

from clubcard.http import FetchError, TooLong
from clubcard.publish.heads import LogFault, LogKey
from clubcard.publish.rfc6962 import Rfc6962
from clubcard.publish.sources import RawEntry
from fake_log import FakeClient, FakeLog, made_log

LOG = made_log(size=250)


def made_source(log: FakeLog = LOG) -> tuple[Rfc6962, FakeClient]:
    client = FakeClient(log)
    return Rfc6962(client, f"http://{log.name}/", LogKey.read(log.spki)), client


def test_what_is_asked() -> None:
    source, client = made_source()
    head = source.head()
    assert (head.time, head.size, head.root) == (LOG.time, 250, LOG.tree.root(250))
    wanted = [RawEntry(leaf, b"" if leaf[10:12] == b"\0\1" else extra) for leaf, extra in LOG.entries]
    assert source.entries(7, 20, 250) == wanted[7:20]
    # The log answers at most 100 at once.
    assert source.entries(7, 250, 250) == wanted[7:107]
    assert source.path(LOG.tree.hashes[9], 9, 250) == LOG.tree.inclusion(9, 250)
    assert source.consistency(9, 250) == LOG.tree.consistency(9, 250)
    assert client.urls[:2] == ["http://one/ct/v1/get-sth", "http://one/ct/v1/get-entries?start=7&end=19"]
    assert client.urls[-1] == "http://one/ct/v1/get-sth-consistency?first=9&second=250"


def test_a_leaf_that_stands_twice() -> None:
    """get-proof-by-hash says where it stands first."""
    log = made_log(size=20)
    log.entries[13] = log.entries[3]
    source, client = made_source(log)
    assert source.path(log.tree.hashes[13], 13, 20) == log.tree.inclusion(13, 20)
    assert client.urls[-1] == "http://one/ct/v1/get-entry-and-proof?leaf_index=13&tree_size=20"


def test_a_log_without_get_proof_by_hash() -> None:
    source, client = made_source()
    client.changes["get-proof-by-hash"] = lambda _: FetchError("status 501", 501)
    assert source.path(LOG.tree.hashes[9], 9, 250) == LOG.tree.inclusion(9, 250)


def test_more_than_was_asked() -> None:
    """What a log answers beyond what it was asked for isn't taken."""
    source, client = made_source()
    more = LOG.answer("ct/v1/get-entries", {"start": "5", "end": "60"})
    client.changes["get-entries"] = lambda _: more
    assert [leaf for leaf, _ in source.entries(5, 10, 250)] == [leaf for leaf, _ in LOG.entries[5:10]]


def test_pages_that_are_too_long(monkeypatch: pytest.MonkeyPatch) -> None:
    monkeypatch.setattr("clubcard.publish.rfc6962.MOST_PAGE", 2000)
    source, client = made_source()
    assert len(source.entries(0, 64, 250)) == 8
    assert [url.partition("?")[2] for url in client.urls] == [f"start=0&end={end}" for end in (63, 31, 15, 7)]
    client.changes["get-entries"] = lambda _: TooLong("the body is too long")
    with pytest.raises(TooLong):
        source.entries(0, 4, 250)


WRONG = [
    ("get-sth", b"", "JSON"),
    ("get-sth", b"<html>", "JSON"),
    ("get-sth", b"\xff", "JSON"),
    ("get-sth", b"[" * 100_000, "JSON"),
    ("get-sth", b"[]", "JSON object"),
    ("get-entries", b"{}", "no entries"),
    ("get-entries", b'{"entries": {}}', "no entries"),
    ("get-entries", b'{"entries": []}', "no entries"),
    ("get-entries", b'{"entries": [1]}', "without leaf_input"),
    ("get-entries", b'{"entries": [{}]}', "without leaf_input"),
    ("get-entries", b'{"entries": [{"leaf_input": "AA==", "extra_data": 1}]}', "without leaf_input"),
    ("get-entries", b'{"entries": [{"leaf_input": "AA", "extra_data": ""}]}', "without leaf_input"),
    ("get-entries", b'{"entries": [{"leaf_input": "AA==\\n", "extra_data": ""}]}', "without leaf_input"),
    ("get-entries", '{"entries": [{"leaf_input": "\u00e9", "extra_data": ""}]}'.encode(), "without leaf_input"),
    ("get-sth-consistency", b'{"consistency": 1}', "consistency isn't a list"),
    ("get-sth-consistency", b'{"consistency": ["AA=="]}', "has 1 bytes"),
    ("get-sth-consistency", json.dumps({"consistency": ["AA=="] * 129}).encode(), "isn't a list"),
    ("get-proof-by-hash", b'{"leaf_index": 9}', "audit_path isn't a list"),
]


def calls(source: Rfc6962) -> dict[str, Callable[[], Any]]:
    return {
        "get-sth": source.head,
        "get-entries": lambda: source.entries(0, 10, 250),
        "get-sth-consistency": lambda: source.consistency(9, 250),
        "get-proof-by-hash": lambda: source.path(LOG.tree.hashes[9], 9, 250),
    }


@pytest.mark.parametrize("message, answer, why", WRONG, ids=range(len(WRONG)))
def test_answers_that_are_refused(message: str, answer: bytes, why: str) -> None:
    source, client = made_source()
    client.changes[message] = lambda _: answer
    with pytest.raises(LogFault, match=why):
        calls(source)[message]()


JSON = st.recursive(
    st.one_of(st.none(), st.booleans(), st.integers(), st.text()),
    lambda inner: st.one_of(
        st.lists(inner),
        st.dictionaries(st.sampled_from(["entries", "leaf_input", "extra_data", "consistency", "leaf_index"]), inner),
    ),
    max_leaves=10,
)


@given(st.one_of(st.binary(), JSON.map(lambda value: json.dumps(value).encode())))
def test_garbage_is_a_fault_of_the_log(answer: bytes) -> None:
    """Whatever a log answers, it is refused, or what was asked for."""
    source, client = made_source()
    for message, call in calls(source).items():
        client.changes = {message: lambda _: answer}
        try:
            found = call()
        except LogFault:
            continue
        assert isinstance(found, list) and message != "get-sth"
