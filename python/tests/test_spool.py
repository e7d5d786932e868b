"""The spool: what an entry's row says, segments as pieces of a job, distribution points that CONFIG doesn't have."""

import dataclasses
import io
from pathlib import Path

from clubcard import jobs
from clubcard.entries import EntryFacts, read_entry
from clubcard.publish.config import Issuer
from clubcard.publish.points import Watch, is_unknown
from clubcard.publish.sources import RawEntry
from clubcard.publish.spool import Batch, log_rows, named_log
from clubcard.publish.state import State
from fake_log import BEGIN, ISSUER_HASH, made_entry, made_log, points_of
from fetching import Runs, made_runs
from web.octets import der

ONE, TWO = "http://ca.example/1.crl", "http://ca.example/2.crl"
AUTHORITY = Issuer(
    "Example", ISSUER_HASH, (b"",), ("http://mirror.example/1.crl",), {"http://mirror.example/1.crl": ONE}
)


def test_what_the_rows_say(tmp_path: Path) -> None:
    log = made_log(size=9)
    log.entries[5] = (b"\0\0" + (77).to_bytes(8, "big") + b"\0\2what", b"")
    runs = made_runs(tmp_path, log)
    runs.fetch()
    for index, time, leaf, extra, issuer, serial, until, aside in runs.spooled():
        facts = read_entry(leaf, extra)
        if index == 5:
            assert (time, issuer, serial, until, aside, facts) == (77, None, None, None, "unread", None)
        else:
            assert facts == EntryFacts(time, issuer or b"", serial or b"", until, None)
            assert time == BEGIN + 1000 * index and issuer == ISSUER_HASH and until == 1_893_456_000


def test_segments_are_pieces_of_a_job(tmp_path: Path) -> None:
    """A segment is copied into a job as it stands."""
    log = made_log(size=20)
    runs = made_runs(tmp_path, log)
    runs.fetch()
    octets = b"".join(path.read_bytes() for path in (tmp_path / "spool").iterdir())
    file = io.BytesIO()
    with jobs.JobWriter(file) as job:
        job.header(1, BEGIN)
        for leaf, extra in log.entries:
            job.entry(log.id, leaf, b"" if leaf[10:12] == b"\0\1" else extra)
    assert file.getvalue()[24:-1] == octets


def test_an_entry_that_no_record_has(tmp_path: Path) -> None:
    """Its leaf is longer than a job's field says."""
    log = made_log(size=1)
    state = State.open(tmp_path)
    row = named_log(state, log.conf())
    batch = Batch(state, row, BEGIN)
    long = b"\0\0" + (88).to_bytes(8, "big") + b"\0\1" + ISSUER_HASH + bytes(1 << 24)
    batch.add([RawEntry(long, b""), RawEntry(*made_entry(1, BEGIN))])
    assert batch.end == 2
    batch.commit(row)
    query = "SELECT place, time, length, aside FROM entry ORDER BY place"
    rows = state.db.execute(query).fetchall()
    assert rows[0] == (0, 88, 0, "unread") and rows[1][:2] == (1, BEGIN) and rows[1][3] is None
    assert [row.key for row in log_rows(state)] == [log.id]
    state.close()


def test_a_batch_that_is_dropped(tmp_path: Path) -> None:
    state = State.open(tmp_path)
    batch = Batch(state, named_log(state, made_log().conf()), BEGIN)
    batch.add([RawEntry(*made_entry(1, BEGIN))])
    batch.drop()
    assert not list((tmp_path / "spool").iterdir())
    state.close()


def test_unknown_points() -> None:
    assert is_unknown(AUTHORITY, [TWO])
    # By CONFIG's own URL, and by the name that the authority gives it.
    assert not is_unknown(AUTHORITY, ["http://mirror.example/1.crl"])
    assert not is_unknown(AUTHORITY, [ONE])
    # The same CRL at several places.
    assert not is_unknown(AUTHORITY, ["ldap://ca.example/1", ONE])


def alarms_of(runs: Runs, issuers: tuple[Issuer, ...], moment: int | None = None) -> list[str]:
    runs.config = dataclasses.replace(runs.config, issuers=issuers)
    runs.fetch(moment)
    return runs.alarms


def test_unknown_points_are_told_while_certificates_last(tmp_path: Path) -> None:
    log = made_log(size=3)
    runs = made_runs(tmp_path, log)
    log.grow(10, points_of(ONE))
    assert not alarms_of(runs, (AUTHORITY,))
    log.grow(10, points_of(TWO))
    text = f"alarm point: Example: entry 13 of one names {TWO}; add the CRL to `crls`, or its name to `names`"
    assert alarms_of(runs, (AUTHORITY,)) == [text] == alarms_of(runs, (AUTHORITY,))
    assert not alarms_of(runs, (dataclasses.replace(AUTHORITY, crls=(*AUTHORITY.crls, TWO)),))
    # Of all entries notAfter is 2030-01-01, and `grace` a millisecond.
    assert alarms_of(runs, (AUTHORITY,), 1_893_456_000_001) == [text]
    assert not alarms_of(runs, (AUTHORITY,), 1_893_456_000_002)


def test_points_of_an_issuer_that_is_named_later(tmp_path: Path) -> None:
    """Those of entries are told that came before, also where CONFIG drops a URL."""
    log = made_log()
    runs = made_runs(tmp_path, log)
    log.grow(5, points_of(ONE))
    log.grow(5, points_of(TWO))
    assert not alarms_of(runs, ())
    both = dataclasses.replace(AUTHORITY, crls=(ONE, TWO), names={})
    assert not alarms_of(runs, (both,))
    (told,) = alarms_of(runs, (dataclasses.replace(both, crls=(TWO,)),))
    assert f"entry 0 of one names {ONE}" in told


def test_many_unknown_points(tmp_path: Path) -> None:
    log = made_log()
    runs = made_runs(tmp_path, log)
    for number in range(25):
        log.grow(1, points_of(f"http://ca.example/{number}.crl"))
    told = alarms_of(runs, (AUTHORITY,))
    assert len(told) == 21 and told[-1] == "alarm point: 4 more distribution points aren't in CONFIG"


def facts_of(until: int | None) -> EntryFacts:
    return EntryFacts(BEGIN, ISSUER_HASH, b"\1", until, points_of(TWO))


def test_how_long_points_are_told(tmp_path: Path) -> None:
    """As long as the last of their certificates; for ever where one tells no date."""
    found: list[tuple[list[int | None], int | None]] = [([5, 9, 7], 9), ([8], 9), ([10, 2], 10)]
    found += [([3, None, 4], None), ([11], None)]
    state = State.open(tmp_path)
    row, number = named_log(state, made_log().conf()), state.issuer_id(ISSUER_HASH)
    for dates, wanted in found:
        watch = Watch()
        for place, until in enumerate(dates):
            watch.look(facts_of(until), place)
        watch.look(EntryFacts(BEGIN, ISSUER_HASH, b"\1", None, None), 7)
        watch.look(EntryFacts(BEGIN, ISSUER_HASH, b"\1", None, der(0x30, b"garbage")), 8)
        watch.save(state.db, row.id, {ISSUER_HASH: number})
        assert state.db.execute("SELECT place, until FROM point").fetchall() == [(0, wanted)]
    state.close()
