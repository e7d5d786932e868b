"""The plan of places: its text, its names, and that the place is the one of the program and of the second program."""

import json
from pathlib import Path
from typing import Any

import pytest
from hypothesis import given
from hypothesis import strategies as some

from clubcard.answers import Refused
from clubcard.cutting import Lost, Sizes, divide, sizes_of
from clubcard.engine import By, Engine
from clubcard.places import MOST, WHOLE, Places, PlacesError, names_of, number_name, told
from clubcard.places_table import read_places
from clubcard.tables import ConfigError, Table
from made import PROGRAM, second_program

reference = second_program("reference")
KEYS, SERIALS = some.binary(min_size=32, max_size=32), some.binary(min_size=1, max_size=32)


@some.composite
def plans(draw: some.DrawFn) -> Places:
    """Any plan."""
    by, count = draw(some.sampled_from(["issuer", "identity"])), draw(some.integers(1, 12))
    names = some.integers(0, count - 1).map(number_name)
    again = draw(some.dictionaries(names, some.integers(2, 6), max_size=4))
    return Places(by, count, again if by == "issuer" else {})


@given(plans())
def test_text(places: Places) -> None:
    """A plan has one text, from which it is read."""
    assert Places.of_text(places.text()) == places
    assert Places.of_members(json.loads(places.text())).text() == places.text()
    names = places.names()
    assert names == sorted(names) and len(set(names)) == len(names) == places.count + sum(places.again.values()) - len(
        places.again
    )
    assert names == [name for group in places.by_identity() for name in group]
    assert names_of(places) == names and names_of(None) == [WHOLE]
    assert told(places) == f"the places {places}" and told(None) == "no places"


@given(plans(), KEYS, SERIALS)
def test_place_of(places: Places, issuer: bytes, serial: bytes) -> None:
    """The place is that of the second program; it has the issuer, and no other does by issuer."""
    identity, name = reference.ident(issuer, serial), places.place_of(issuer, serial)
    by_issuer = places.by == "issuer"
    first = reference.issuer_place(issuer, places.count) if by_issuer else reference.place(identity, places.count)
    wanted = number_name(first)
    if wanted in places.again:
        wanted += f".{number_name(reference.place(identity, places.again[wanted]))}"
    assert name == wanted and name in places.names()
    having = {each[:4] for each in places.names() if places.has_issuer(each, issuer)}
    assert having == ({name[:4]} if by_issuer else {each[:4] for each in places.names()})


def test_place_of_the_program() -> None:
    engine, places = Engine(PROGRAM), Places("issuer", 3, {"0001": 5})
    for number in range(40):
        issuer, serial = bytes([number]) * 32, bytes([number, 7])
        name = number_name(engine.place(By.ISSUER, issuer, serial, 3))
        again = f"{name}.{number_name(engine.place(By.IDENTITY, issuer, serial, 5))}"
        assert places.place_of(issuer, serial) == (again if name == "0001" else name)
    with pytest.raises(Refused):
        places.place_of(bytes(32), b"")


@pytest.mark.parametrize(
    "words, says",
    [
        (("log", 3), "by: 'log' is neither"),
        (("issuer", 0), "count: 0 isn't within 1 and 1024"),
        (("issuer", 1025), "count: 1025"),
        (("identity", 3, {"0000": 2}), "give `count` more"),
        (("issuer", 3, {"0003": 2}), "no place '0003' among 3"),
        (("issuer", 3, {"1": 2}), "no place '1'"),
        (("issuer", 3, {"0001": 1}), "0001: 1 isn't within 2"),
    ],
)
def test_plans_that_are_none(words: Any, says: str) -> None:
    with pytest.raises(PlacesError, match=says):
        Places(*words)


@given(
    some.recursive(
        some.none() | some.booleans() | some.integers() | some.text(max_size=6),
        lambda each: some.lists(each) | some.dictionaries(some.sampled_from(["by", "count", "again", "0000"]), each),
    )
)
def test_any_value(value: Any) -> None:
    """A value is a plan with one text, or is refused as none."""
    try:
        places = Places.of_members(value)
    except PlacesError as fault:
        assert ": " in str(fault)
    else:
        assert places.members() == value


@pytest.mark.parametrize(
    "value, says",
    [
        ([], "and nothing else"),
        ({"by": "issuer", "count": 3}, "and nothing else"),
        ({"by": "issuer", "count": 3, "again": {}, "more": 1}, "and nothing else"),
        ({"by": 1, "count": 3, "again": {}}, "isn't a text"),
        ({"by": "issuer", "count": True, "again": {}}, "no number"),
        ({"by": "issuer", "count": 3, "again": {"0000": "2"}}, "isn't numbers by places"),
        ({"by": "issuer", "count": 3, "again": [2]}, "isn't numbers by places"),
    ],
)
def test_members(value: object, says: str) -> None:
    with pytest.raises(PlacesError, match=says):
        Places.of_members(value)
    with pytest.raises(PlacesError):
        Places.of_text(json.dumps(value) + "]")


def test_table() -> None:
    def read(values: Any) -> Places | None:
        return read_places(Table("CONFIG", {"places": values}))

    assert read_places(Table("CONFIG", {})) is None
    assert read({"by": "issuer", "count": 3, "again": {"0002": 4}}) == Places("issuer", 3, {"0002": 4})
    assert read({"by": "identity", "count": MOST}) == Places("identity", MOST)
    for values, says in (
        ({"by": "issuer"}, r"CONFIG: \[places\]: the key \"count\" is missing"),
        ({"by": "day", "count": 3}, r"CONFIG: \[places\]: by: 'day' is neither"),
        ({"by": "issuer", "count": 3, "again": {"3": 2}}, r"\[places\]: again: there is no key \"3\" here"),
        ({"by": "identity", "count": 3, "again": {"0000": 2}}, "give `count` more"),
        ({"by": "issuer", "count": 3, "places": 2}, r"\[places\]: there is no key \"places\""),
    ):
        with pytest.raises(ConfigError, match=says):
            read(values)


# ---------- jobs that are cut
def test_divide(tmp_path: Path) -> None:
    """Each byte of a job is at one place, or at those that share it; how many entries are cut is said."""
    job = reference.sample_job(7, 60)
    (tmp_path / "job").write_bytes(job.bytes())
    crls = sum(37 + len(crl.bytes) for _, crl in job.crls)
    sizes = sizes_of(tmp_path / "job")
    assert sizes == Sizes(24 + 49, crls, len(job.bytes()) - 24 - 49 - crls - 1)
    places = Places("issuer", 2, {number_name(reference.issuer_place(job.crls[0][0], 2)): 3})
    paths = {name: tmp_path / name for name in [*places.names(), *places.again]}
    assert divide(Engine(PROGRAM), places, tmp_path / "job", paths) == 60
    assert sum(sizes_of(paths[name]).entries for name in places.names()) == sizes.entries
    for name in places.names():
        wanted = [crl for issuer, crl in job.crls if places.has_issuer(name, issuer)]
        assert sizes_of(paths[name]).crls == sum(37 + len(crl.bytes) for crl in wanted)


def test_a_cut_that_loses(tmp_path: Path, monkeypatch: pytest.MonkeyPatch) -> None:
    job = reference.sample_job(7, 60)
    (tmp_path / "job").write_bytes(job.bytes())
    cut = Engine.cut

    def losing(self: Engine, by: str, whole: Any, pieces: Any) -> Any:
        said = cut(self, by, whole, pieces)
        # The last of its records, of 108 bytes.
        Path(pieces[0]).write_bytes(Path(pieces[0]).read_bytes()[:-109] + b"\0")
        return said

    monkeypatch.setattr(Engine, "cut", losing)
    places = Places("identity", 2)
    with pytest.raises(Lost, match="its places have"):
        divide(Engine(PROGRAM), places, tmp_path / "job", {name: tmp_path / name for name in places.names()})
