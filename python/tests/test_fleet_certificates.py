"""Certificates by their files, asked of places: the verdicts and refusals are those of the one store."""

from pathlib import Path

import pytest

from asked import SERIALS, WORDS, Small
from clubcard import Fleet, Refused, Store
from clubcard.cutting import divide
from clubcard.engine import Engine
from clubcard.places import Places
from made import PROGRAM

PLANS = [Places("identity", 5), Places("issuer", 2), Places("issuer", 1, {"0000": 4})]


def said(held: Store | Fleet, cert: bytes, issuer: bytes) -> str:
    """The verdict, or why there is none."""
    try:
        return held.query_cert(cert, issuer).name
    except Refused as refused:
        return refused.refusal.name


def fleet_of(small: Small, places: Places) -> Fleet:
    """The stores of places of the job of the one store."""
    engine, stores = Engine(PROGRAM), {}
    paths = {name: small[f"{name}.job"] for name in [*places.names(), *places.again]}
    divide(engine, places, small["job"], paths)
    for name in places.names():
        engine.snapshot(paths[name], small[f"{name}.part"], small[f"{name}.ledger"], 1)
        engine.start(small[f"{name}.part"], small[f"{name}.store"])
        stores[name] = small[f"{name}.store"].read_bytes()
    return Fleet(places, stores)


@pytest.mark.parametrize("places", PLANS, ids=str)
def test_query_cert(tmp_path: Path, places: Places) -> None:
    small = Small(tmp_path / "small")
    whole, fleet = Store.from_file(small.store), fleet_of(small, places)
    found = set()
    for name in ("elm", "oak"):
        issuer = small[f"{name}.der"].read_bytes()
        for word in SERIALS:
            cert = small[f"{name}-{word}.der"].read_bytes()
            assert said(fleet, cert, issuer) == said(whole, cert, issuer)
            found.add(said(fleet, cert, issuer))
            for wrong in (b"", b"\x30\x00", cert[:-1], issuer):
                assert said(fleet, wrong, issuer) == said(whole, wrong, issuer)
                assert said(fleet, cert, wrong) == said(whole, cert, wrong)
    assert found == {word.upper().replace("-", "_") for word in WORDS.values()}
    with pytest.raises(TypeError):
        fleet.query_cert("a certificate", b"")  # type: ignore[arg-type]
