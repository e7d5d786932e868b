"""Which CRLs are kept, and which issuers an epoch enrols by them."""

import errno
import tempfile
from collections.abc import Iterator
from dataclasses import replace
from pathlib import Path
from typing import Any

import pytest
from cryptography import x509
from cryptography.hazmat.primitives.asymmetric import rsa
from hypothesis import HealthCheck, given, settings
from hypothesis import strategies as st

from clubcard import crls, pki
from clubcard.http import FetchError
from clubcard.progress import Silent
from clubcard.publish.config import Config, Issuer
from clubcard.publish.issuers import Enrolment, enrolled, fetch_crls
from clubcard.publish.kept import KeptCrl, in_time, is_older
from clubcard.publish.state import State

from desk import HOUR, NOW, Web, made_crl
from made import Authority, pem_of

URLS = tuple(f"http://crl.example/{place}.crl" for place in range(4))
AUTHORITY, OTHER = Authority.of("Example CA"), Authority.of("Other CA", rsa.generate_private_key(65537, 2048))


def issuer_of(by: Authority, *urls: str, **names: str) -> Issuer:
    """An issuer of CONFIG with these URLs."""
    return Issuer(str(by.name.rfc4514_string()), pki.issuer_hash(by.der), (by.der,), urls, names)


class Desk:
    """A state, a web, and the issuers of CONFIG."""

    def __init__(self, folder: Path, *issuers: Issuer) -> None:
        self.web, self.state = Web(), State.open(folder / "state")
        paths = {"path": folder / "C", "state": folder / "state", "site": folder / "site", "key": folder / "k"}
        spans = {"valid_for": HOUR, "max_away": HOUR, "grace": HOUR, "keep": HOUR}
        numbers = {"workers": 1, "rebase_after": 40, "patience": 8}
        rest: dict[str, Any] = {**paths, **spans, **numbers, "name": "x", "next_key": None, "program": "clubcard"}
        self.config = Config(**rest, issuers=issuers, logs=())

    def name(self, *issuers: Issuer) -> None:
        """CONFIG with other issuers."""
        self.config = replace(self.config, issuers=issuers)

    def fetch(self, moment: int = NOW, **pages: bytes | FetchError) -> Enrolment:
        """A run's fetching, with `u0` for the first of URLS, and what it enrols."""
        self.web.pages.update({URLS[int(key[1:])]: page for key, page in pages.items()})
        fetch_crls(self.config, self.state, moment, self.web, Silent())
        return enrolled(self.config, self.state, moment)

    def why(self, url: str) -> str | None:
        """Why the last try took nothing."""
        (why,) = self.state.db.execute("SELECT why FROM crl_try WHERE url = ?", (url,)).fetchone()
        return None if why is None else str(why)

    def files(self) -> int:
        """How many CRLs lie in the state."""
        return len(list((self.state.folder / "crls").iterdir()))


ONE = issuer_of(AUTHORITY, URLS[0])
TWO = issuer_of(AUTHORITY, *URLS[:2])
FOUR = issuer_of(AUTHORITY, *URLS)


@pytest.fixture
def desk(tmp_path: Path) -> Iterator[Desk]:
    """A desk with one issuer of one URL."""
    made = Desk(tmp_path, ONE)
    yield made
    made.state.close()


def numbers(enrolment: Enrolment, issuer: Issuer = ONE) -> list[int | None]:
    """The CRL numbers with which an issuer is enrolled."""
    return [crl.number for crl in enrolment.crls[issuer.key]]


def partition(place: int, **more: Any) -> bytes:
    """A CRL of the partition of a URL."""
    return made_crl(AUTHORITY, points=[URLS[place]], serials=[100 + place], **more)


def test_accepted(desk: Desk) -> None:
    octets = made_crl(AUTHORITY, number=7, serials=[5])
    found = desk.fetch(u0=octets)
    (crl,) = found.crls[ONE.key]
    assert not found.left
    assert crl.file.read_bytes() == octets
    assert (crl.issuer, crl.url, crl.number) == (ONE.key, URLS[0], 7)
    assert (crl.this_update, crl.next_update) == (NOW - HOUR, NOW + HOUR)
    assert desk.why(URLS[0]) is None


def test_pem(desk: Desk) -> None:
    octets = made_crl(AUTHORITY)
    (crl,) = desk.fetch(u0=pem_of(x509.load_der_x509_crl(octets))).crls[ONE.key]
    assert crl.file.read_bytes() == octets


def test_without_number(desk: Desk) -> None:
    assert numbers(desk.fetch(u0=made_crl(AUTHORITY, number=None))) == [None]
    newer = made_crl(AUTHORITY, number=None, this=NOW - 1000)
    assert desk.fetch(u0=newer).crls[ONE.key][0].this_update == NOW - 1000


def test_great_number(desk: Desk) -> None:
    assert numbers(desk.fetch(u0=made_crl(AUTHORITY, number=(1 << 159) - 1))) == [(1 << 159) - 1]


def test_asked_for_what_is_newer(desk: Desk) -> None:
    desk.fetch(u0=made_crl(AUTHORITY))
    assert desk.web.asked[URLS[0]] is None
    before = desk.fetch()
    assert desk.web.asked[URLS[0]] is not None
    assert numbers(before) == [1] and desk.files() == 1
    assert numbers(desk.fetch(u0=made_crl(AUTHORITY, number=2))) == [2] and desk.files() == 1


def test_server_that_sees_nothing_newer(desk: Desk) -> None:
    """One that says so wrongly is asked for the whole file once the kept CRL is out of time."""
    desk.fetch(u0=made_crl(AUTHORITY))
    desk.fetch(u0=made_crl(AUTHORITY, number=2, until=NOW + 9 * HOUR))
    desk.fetch(NOW + 8 * HOUR)
    assert desk.web.asked[URLS[0]] is not None
    desk.fetch(NOW + 10 * HOUR)
    assert desk.web.asked[URLS[0]] is None


def test_same_bytes_again(desk: Desk) -> None:
    before = desk.fetch(u0=made_crl(AUTHORITY))
    desk.state.db.execute("UPDATE crl_try SET etag = NULL")
    assert desk.fetch() == before
    assert desk.files() == 1 and desk.why(URLS[0]) is None


def test_failed_fetch_leaves_nobody_out(desk: Desk) -> None:
    desk.fetch(u0=made_crl(AUTHORITY))
    found = desk.fetch(u0=FetchError("status 503", 503))
    assert numbers(found) == [1] and not found.lacks
    assert desk.why(URLS[0]) == "status 503"
    desk.fetch()
    assert desk.web.asked[URLS[0]] is not None


def test_never_accepted(desk: Desk) -> None:
    found = desk.fetch()
    assert not found.crls
    assert found.left == {ONE.key: f"{URLS[0]}: none was accepted yet: status 404"}
    (lack,) = found.lacks
    assert "CN=Example CA" in str(lack) and URLS[0] in str(lack) and "status 404" in str(lack)


def test_never_asked(desk: Desk) -> None:
    assert "never asked for" in enrolled(desk.config, desk.state, NOW).left[ONE.key]


def test_out_of_time(desk: Desk) -> None:
    desk.fetch(u0=made_crl(AUTHORITY, until=NOW + HOUR))
    assert numbers(desk.fetch(NOW + HOUR)) == [1]
    found = desk.fetch(NOW + HOUR + 1)
    assert "out of time since" in found.left[ONE.key] and not found.crls


@pytest.mark.parametrize(("until", "taken"), [(NOW, True), (NOW - 1000, False)])
def test_fetched_out_of_time(desk: Desk, until: int, taken: bool) -> None:
    desk.fetch(u0=made_crl(AUTHORITY))
    found = desk.fetch(u0=made_crl(AUTHORITY, number=2, until=until))
    assert numbers(found) == ([2] if taken else [1])
    assert (desk.why(URLS[0]) is None) == taken


def test_milliseconds_count(desk: Desk) -> None:
    """1000 times nextUpdate is compared, and not whole seconds."""
    assert "out of time" in desk.fetch(NOW + 1, u0=made_crl(AUTHORITY, until=NOW)).left[ONE.key]


@pytest.mark.parametrize(("ahead", "taken"), [(60_000, True), (61_000, False)])
def test_ahead(desk: Desk, ahead: int, taken: bool) -> None:
    found = desk.fetch(u0=made_crl(AUTHORITY, this=NOW + ahead))
    assert (ONE.key in found.crls) == taken
    assert taken or "lies ahead" in found.left[ONE.key]


def test_older_number(desk: Desk) -> None:
    desk.fetch(u0=made_crl(AUTHORITY, number=5))
    assert numbers(desk.fetch(u0=made_crl(AUTHORITY, number=4, this=NOW - 1000))) == [5]
    assert "is older" in (desk.why(URLS[0]) or "")
    assert desk.files() == 1


def test_older_this_update(desk: Desk) -> None:
    desk.fetch(u0=made_crl(AUTHORITY, number=5, this=NOW - 1000))
    kept = desk.fetch(u0=made_crl(AUTHORITY, number=5, this=NOW - 2000)).crls[ONE.key][0]
    assert kept.this_update == NOW - 1000


def test_numbered_anew(desk: Desk) -> None:
    """Numbers that begin anew are refused while the kept CRL is in time, and an older one also behind it."""
    desk.fetch(u0=made_crl(AUTHORITY, number=5))
    anew = made_crl(AUTHORITY, number=1, this=NOW, until=NOW + 9 * HOUR)
    assert numbers(desk.fetch(u0=anew)) == [5]
    late = NOW + 2 * HOUR
    older = made_crl(AUTHORITY, number=4, this=NOW - 2 * HOUR, until=NOW + 9 * HOUR)
    assert not desk.fetch(late, u0=older).crls
    assert numbers(desk.fetch(late, u0=anew)) == [1]


@pytest.mark.parametrize(
    ("octets", "why"),
    [
        (b"<html>", "it is neither DER nor"),
        (b"", "it is neither DER nor"),
        (made_crl(AUTHORITY)[:-9], "it isn't a CRL"),
        (made_crl(AUTHORITY, key=OTHER.key), "it isn't signed by the issuer"),
        (made_crl(OTHER), "it is another issuer's"),
        (made_crl(AUTHORITY, extra=x509.DeltaCRLIndicator(1)), "it is a delta CRL"),
        (made_crl(AUTHORITY, points=[URLS[0]], indirect=True), "it is indirect"),
        (made_crl(AUTHORITY, points=[URLS[1]]), "it is another point's"),
    ],
    ids=["page", "empty", "cut", "key", "issuer", "delta", "indirect", "point"],
)
def test_refused(desk: Desk, octets: bytes, why: str) -> None:
    assert why in desk.fetch(u0=octets).left[ONE.key]
    assert desk.files() == 0
    desk.fetch(u0=made_crl(AUTHORITY))
    assert numbers(desk.fetch(u0=octets)) == [1]
    assert desk.files() == 1


def test_partitions(desk: Desk) -> None:
    desk.name(FOUR)
    pages: dict[str, Any] = {f"u{place}": partition(place) for place in range(4)}
    three = {key: pages[key] for key in ("u0", "u1", "u2")}
    found = desk.fetch(**three)
    assert found.left == {FOUR.key: f"{URLS[3]}: none was accepted yet: status 404"}
    assert [lack.url for lack in found.lacks] == [URLS[3]]
    found = desk.fetch(**pages)
    assert [crl.url for crl in found.crls[FOUR.key]] == list(URLS)
    found = desk.fetch(u2=FetchError("status 500", 500))
    assert numbers(found, FOUR) == [1, 1, 1, 1] and not found.left


def test_swapped_partitions(desk: Desk) -> None:
    desk.name(TWO)
    found = desk.fetch(u0=partition(1), u1=partition(0))
    assert [lack.url for lack in found.lacks] == [URLS[0], URLS[1]]
    assert all("another point's" in lack.why for lack in found.lacks)


def test_partition_without_point(desk: Desk) -> None:
    desk.name(TWO)
    assert "names no distribution point" in desk.fetch(u0=made_crl(AUTHORITY), u1=partition(1)).left[TWO.key]


def test_one_crl_at_two_urls(desk: Desk) -> None:
    desk.name(TWO)
    both = made_crl(AUTHORITY, points=URLS[:2])
    found = desk.fetch(u0=both, u1=both)
    assert len(found.lacks) == 2 and "brought the same CRL" in found.lacks[0].why
    assert desk.files() == 0


def test_kept_at_another_url(desk: Desk) -> None:
    desk.name(TWO)
    both = made_crl(AUTHORITY, number=2, points=URLS[:2])
    desk.fetch(u0=both, u1=partition(1))
    assert numbers(desk.fetch(u1=both), TWO) == [2, 1]
    assert desk.why(URLS[1]) == f"{URLS[0]} brought the same CRL: each URL in crls has a CRL of its own"


def test_names(desk: Desk) -> None:
    named = issuer_of(AUTHORITY, *URLS[:2], **{URLS[0]: "http://real.example/0", URLS[1]: "http://real.example/1"})
    desk.name(named)
    pages: dict[str, Any] = {
        f"u{place}": made_crl(AUTHORITY, points=[f"http://real.example/{place}"]) for place in (0, 1)
    }
    assert numbers(desk.fetch(**pages), named) == [1, 1]
    assert not desk.fetch(u0=partition(0, number=2), u1=partition(1, number=2)).lacks
    assert "another point's" in (desk.why(URLS[0]) or "")


def test_config_gets_a_second_url(desk: Desk) -> None:
    """What was enough as the only CRL isn't once there are two."""
    desk.fetch(u0=made_crl(AUTHORITY))
    desk.name(TWO)
    found = desk.fetch(u1=partition(1))
    assert "isn't accepted under this CONFIG: it names no distribution point" in found.left[TWO.key]
    desk.name(ONE)
    assert numbers(desk.fetch()) == [1]


def test_issuers_by_themselves(desk: Desk) -> None:
    other = issuer_of(OTHER, URLS[1])
    desk.name(ONE, other)
    found = desk.fetch(u0=made_crl(AUTHORITY), u1=b"garbage")
    assert list(found.crls) == [ONE.key] and list(found.left) == [other.key]
    found = desk.fetch(u0=b"garbage", u1=made_crl(OTHER))
    assert list(found.crls) == [ONE.key, other.key]
    desk.name(other)
    assert list(desk.fetch().crls) == [other.key]


def test_what_nobody_foresaw(desk: Desk, monkeypatch: pytest.MonkeyPatch) -> None:
    """A fault of the reader at one authority's bytes leaves that one out, and nobody else."""
    vet = crls.vet

    def faulty(octets: bytes, *words: Any) -> crls.Crl:
        return vet(octets, *words) if octets != b"garbage" else [][len(octets)]

    monkeypatch.setattr(crls, "vet", faulty)
    other = issuer_of(OTHER, URLS[1])
    desk.name(ONE, other)
    found = desk.fetch(u0=made_crl(AUTHORITY), u1=b"garbage")
    assert list(found.crls) == [ONE.key] and "it can't be read (IndexError" in found.left[other.key]


def test_url_of_two_issuers(desk: Desk) -> None:
    other = issuer_of(OTHER, URLS[0])
    desk.name(ONE, other)
    assert list(desk.fetch(u0=made_crl(OTHER)).crls) == [other.key]


@pytest.mark.parametrize("damage", ["gone", "changed", "short"])
def test_damaged_file(desk: Desk, damage: str) -> None:
    (crl,) = desk.fetch(u0=made_crl(AUTHORITY)).crls[ONE.key]
    octets = crl.file.read_bytes()
    if damage == "gone":
        crl.file.unlink()
    else:
        crl.file.write_bytes(octets[:-1] + (b"" if damage == "short" else bytes([octets[-1] ^ 1])))
    assert ONE.key in enrolled(desk.config, desk.state, NOW).left
    assert numbers(desk.fetch()) == [1]
    assert desk.web.asked[URLS[0]] is None and desk.files() == 1


def test_stopped_before_the_rows(desk: Desk, monkeypatch: pytest.MonkeyPatch) -> None:
    desk.fetch(u0=made_crl(AUTHORITY))
    with monkeypatch.context() as patch:
        patch.setattr("clubcard.publish.issuers.note", lambda *_: 1 / 0)
        with pytest.raises(ZeroDivisionError):
            desk.fetch(u0=made_crl(AUTHORITY, number=2))
    assert desk.files() == 2
    desk.state.sweep()
    assert desk.files() == 1
    assert numbers(enrolled(desk.config, desk.state, NOW)) == [1]
    assert numbers(desk.fetch()) == [2]


def test_full_disk(desk: Desk, monkeypatch: pytest.MonkeyPatch) -> None:
    desk.fetch(u0=made_crl(AUTHORITY))

    def full(*_: object) -> None:
        raise OSError(errno.ENOSPC, "No space left on device")

    with monkeypatch.context() as patch:
        patch.setattr(Path, "write_bytes", full)
        with pytest.raises(OSError, match="No space left"):
            desk.fetch(u0=made_crl(AUTHORITY, number=2))
    assert numbers(enrolled(desk.config, desk.state, NOW)) == [1]


def test_many(desk: Desk) -> None:
    """More URLs than are fetched at once."""
    urls = [f"http://crl.example/many/{place}" for place in range(40)]
    desk.name(issuer_of(AUTHORITY, *urls), issuer_of(OTHER, *(f"{url}/other" for url in urls)))
    for place, url in enumerate(urls):
        desk.web.pages[url] = made_crl(AUTHORITY, number=place, points=[url])
    found = desk.fetch()
    assert numbers(found, desk.config.issuers[0]) == list(range(40))
    assert len(found.lacks) == 40


def test_rule_of_time() -> None:
    assert in_time(None, NOW) and in_time(NOW, NOW) and not in_time(NOW - 1, NOW)


def kept(number: int | None, this: int) -> KeptCrl:
    """A kept CRL that is in time for ever."""
    return KeptCrl(bytes(32), URLS[0], Path("x"), number, this, None, bytes(32))


@given(st.lists(st.tuples(st.integers(0, 3), st.integers(0, 3)), min_size=1))
def test_order(found: list[tuple[int, int]]) -> None:
    """Of CRLs that come in any order the newest by number and thisUpdate stays, and at the same one the last."""
    held = kept(*found[0])
    for number, this in found[1:]:
        new = kept(number, this)
        held = held if is_older(new, held, NOW) else new
    assert (held.number, held.this_update) == max(found)


KINDS = ["fresh", "same", "missing", "stale", "replayed", "swapped", "foreign", "ahead", "cut"]
STEP = st.tuples(
    st.integers(1, 4), st.lists(st.tuples(st.sampled_from(KINDS), st.integers(1, 6)), min_size=2, max_size=2)
)


class Partition:
    """What a server shows of a partition, and what is to be kept of it: the newest that was acceptable."""

    def __init__(self, place: int) -> None:
        self.place, self.number = place, 0
        self.shown: list[tuple[int, int, bytes]] = []
        self.kept: tuple[int, int] | None = None

    def step(self, kind: str, hours: int, moment: int) -> bytes | FetchError:
        """The next page of the server, by its kind. `hours` is how long a CRL is in time."""
        self.number += 1
        until, more = moment + hours * HOUR, {"number": self.number, "this": moment - 1000}
        if kind == "missing":
            return FetchError("status 404", 404)
        if kind == "stale":
            return partition(self.place, until=moment - 1000, **more)
        if kind == "ahead":
            return partition(self.place, number=self.number, this=moment + HOUR, until=until)
        if kind == "swapped":
            return partition(1 - self.place, until=until, **more)
        if kind == "foreign":
            return partition(self.place, until=until, key=OTHER.key, **more)
        if kind == "cut":
            return partition(self.place, until=until, **more)[:-5]
        if kind in ("same", "replayed") and self.shown:
            number, until, octets = self.shown[-1 if kind == "same" else 0]
        else:
            number, octets = self.number, partition(self.place, until=until, **more)
            self.shown.append((number, until, octets))
        if until >= moment and (self.kept is None or number >= self.kept[0]):
            self.kept = number, until
        return octets


@settings(
    deadline=None, max_examples=30, suppress_health_check=[HealthCheck.function_scoped_fixture, HealthCheck.too_slow]
)
@given(steps=st.lists(STEP, max_size=8))
def test_histories(tmp_path: Path, steps: list[tuple[int, list[tuple[str, int]]]]) -> None:
    """In each run an issuer is enrolled exactly where the newest acceptable CRL of each partition is in time."""
    with tempfile.TemporaryDirectory(dir=tmp_path) as folder:
        desk, moment = Desk(Path(folder), TWO), NOW
        partitions = [Partition(0), Partition(1)]
        for hours, kinds in steps:
            moment += hours * HOUR + 7
            pages = [each.step(kind, valid, moment) for each, (kind, valid) in zip(partitions, kinds)]
            found = desk.fetch(moment, u0=pages[0], u1=pages[1])
            if all(each.kept is not None and each.kept[1] // 1000 * 1000 >= moment for each in partitions):
                assert numbers(found, TWO) == [each.kept[0] for each in partitions if each.kept is not None]
            else:
                assert TWO.key in found.left and not found.crls
            assert desk.files() == sum(each.kept is not None for each in partitions)
        desk.state.close()
