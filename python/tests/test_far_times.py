"""Times that no calendar has, which a log may give its entries: they wait, and stop nobody."""

import json
from pathlib import Path

import pytest

from clubcard.publish import chain, overview, report, status
from clubcard.times import nearest_iso, to_iso
from spooled import Seen, Spooled, at

FAR = 2**63 - 1
"""The greatest time that the spool holds."""


def test_an_entry_of_a_far_time(tmp_path: Path, plain_charts: None) -> None:
    """It isn't covered; the epoch is made, and the page and the status are told."""
    world = Spooled.of(tmp_path)
    near, far = Seen(0, at(1), 0, b"\x01"), Seen(0, FAR, 0, b"\x02")
    world.write([near, far])
    row = world.epoch(4, {0: [b"\x01"]}).row
    assert (row.shown, row.waiting) == (1, 1) and world.ask([near]) == ["revoked"]
    release = chain.release(world.state)
    assert release is not None
    assert b"9999-12-31" in report.to_html(overview.read(world.config, world.state, release))
    told = status.gather(world.config, world.state, at(5))
    assert [each.since for each in told.waiting] == ["9999-12-31T00:00:00.000Z"]
    assert any("9999" in line for line in status.lines(told)) and json.loads(status.to_json(told))


@pytest.mark.parametrize("time, said", [(FAR, "9999-12-31"), (-FAR, "0001-01-01"), (at(1), to_iso(at(1)))])
def test_nearest_time(time: int, said: str) -> None:
    """Any time is told; only `to_iso` refuses one."""
    assert nearest_iso(time).startswith(said)
