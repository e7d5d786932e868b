"""Where the parts of a store stand."""

from pathlib import Path

import pytest

import inspected
import made
from clubcard.engine import Engine
from clubcard.layout.fields import LayoutFault
from clubcard.layout.store import PartAt, parts_of

SHIPPED = made.TOP / "crates" / "clubcard" / "data" / "one_revoked.store"


def test_the_store_by_hand() -> None:
    assert parts_of(SHIPPED.read_bytes()) == [PartAt(10, 169, "snapshot", 1)]


def test_parts_of_a_store(tmp_path: Path) -> None:
    """They lie one behind another, and each is the file that was installed."""
    files = inspected.make(tmp_path)
    store = files.store.read_bytes()
    parts = parts_of(store)
    assert [store[part.offset : part.offset + part.length] for part in parts] == [
        part.read_bytes() for part in files.parts
    ]
    facts = [Engine(made.PROGRAM).check(part) for part in files.parts]
    assert [(part.kind, part.epoch, part.length) for part in parts] == [(f.kind, f.epoch, f.size) for f in facts]


def test_parts_with_shards(tmp_path: Path) -> None:
    part = inspected.shard_part().bytes
    (tmp_path / "part").write_bytes(part)
    assert Engine(made.PROGRAM).check(tmp_path / "part").size == len(part)
    assert parts_of(b"CLUBSTOR\x01\x02" + part + part) == [
        PartAt(10, len(part), "snapshot", 7),
        PartAt(10 + len(part), len(part), "snapshot", 7),
    ]


def test_what_is_no_store(tmp_path: Path) -> None:
    """At each length a field is missing, and one byte more is one too many."""
    store = inspected.make(tmp_path).store.read_bytes()
    for length in range(len(store)):
        with pytest.raises(LayoutFault):
            parts_of(store[:length])
    with pytest.raises(LayoutFault, match=f"end at {len(store)} "):
        parts_of(store + b"\0")
    with pytest.raises(LayoutFault, match=r"store.magic at 0 \(value\): 434c554243415244; 434c554253544f52"):
        parts_of(b"CLUBCARD" + store[8:])
