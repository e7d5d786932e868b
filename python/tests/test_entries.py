"""What is read of entries, of certificates and of CRLs, against the second program of tools/ and the program itself."""

import random
from collections.abc import Iterator, Sequence
from pathlib import Path
from typing import Any

import pytest
from cryptography import x509
from hypothesis import example, given, settings
from hypothesis import strategies as st

import made
from clubcard import crls, der, entries, extensions, pki
from clubcard.engine import Engine
from clubcard.entries import EntryFacts, read_entry
from clubcard.jobs import JobWriter

READERS = made.second_program("scenario_readers")
READING = made.second_program("vector_reading")
CALLS: Any = made.second_program("vectors").Calls
STAGE = made.second_program("scenario_stage")
VECTORS = ("der.txt", "logs.txt", "dates.txt", "timestamps.txt", "crls.txt")
FAULTS = {"Short", "BadTag", "BadLength", "BadTime", "Malformed", "NoScts", "BadScts", "TooManyScts"}
FAULTS |= {"DeltaCrl", "Indirect", "UnknownCritical"}


# ---- the calls of crates/vectors


class Ours(CALLS):  # type: ignore[misc]
    """The calls that read, by this package."""

    def element(self, word: str) -> str:
        try:
            octets = self.bytes(word)
            tag, start, stop = der.header(octets, 0, len(octets))
        except der.Malformed:
            return "fault"
        return f"tag {tag:02x} bytes {stop} contents {octets[start:stop].hex()}"

    def elements(self, word: str) -> str:
        out = "elements"
        try:
            for element in der.elements(self.bytes(word)):
                out += f" {element.tag:02x}:{element.contents.hex()}"
        except der.Malformed:
            out += " fault"
        return out

    def time(self, tag: str, text: str) -> str:
        try:
            return str(der.seconds(int(tag, 16), text.encode()))
        except der.Malformed:
            return "fault"

    def entry(self, leaf: str, extra: str) -> str:
        facts = read_entry(self.bytes(leaf), self.bytes(extra))
        if facts is None:
            return "unread"
        until = "never" if facts.until is None else facts.until
        told = f"issuer {facts.issuer.hex()} serial {facts.serial.hex()}"
        return f"{told} log {made.LOG.hex()} time {facts.time} until {until}"

    def issuer(self, word: str) -> str:
        try:
            found = entries.issuer_hash(self.bytes(word))
            assert pki.issuer_hash(self.bytes(word)) == found
            return f"issuer {found.hex()}"
        except der.Malformed:
            return "unread"

    def timestamps(self, word: str) -> str:
        try:
            told = READING.sightings_text(pki.timestamps(self.bytes(word)))
        except pki.PkiError:
            return "fault"
        return f"serial {pki.read_certificate(self.bytes(word)).serial.hex()}{told}" if told else "fault"

    def crl(self, word: str) -> str:
        try:
            form = crls._read(self.bytes(word))
            found = extensions.read_extensions(form.extensions)
            crls._test_extensions(found)
            serials = list(crls._serials(form.revoked))
            values = [extension.value for extension in found if extension.oid == extensions.ISSUING_POINT]
            if any("indirect" in extensions.issuing_point(value).scope for value in values):
                return "crl fault"
        except (der.Malformed, crls.CrlRefused):
            return "crl fault"
        following = "" if form.next_update is None else f" next {form.next_update}"
        return f"crl this {form.this_update}{following}" + "".join(f" {octets.hex()}" for octets in serials)


def alike(told: str) -> str:
    """What a call of the second program tells, in which all faults are alike."""
    words = ["fault" if word in FAULTS else word for word in told.split(" ")]
    # What is told of a serial beside a fault isn't asked for.
    return "fault" if words[-1] == "fault" and words[0] in ("serial", "no") else " ".join(words)


class Theirs(CALLS):  # type: ignore[misc]
    """The same calls by the second program."""

    def run(self, words: Sequence[str]) -> Any:
        came = super().run(words)
        came.printed = alike(came.printed.removesuffix("\n")) + "\n"
        return came


@pytest.mark.parametrize("name", VECTORS)
def test_vectors(name: str) -> None:
    text = (made.TOP / "crates" / "vectors" / "data" / name).read_text(encoding="utf-8")
    expected = STAGE.transcript(text, Theirs).splitlines()
    assert STAGE.transcript(text, Ours).splitlines() == expected
    assert len(expected) > 20


HEADERS = st.one_of(
    st.binary(max_size=8),
    st.tuples(st.integers(0, 255), st.integers(0x7F, 0x86), st.binary(max_size=7)).map(lambda x: bytes(x[:2]) + x[2]),
    st.tuples(st.integers(0, 255), st.integers(0, 1 << 34), st.integers(0, 6)).map(
        lambda x: bytes([x[0], 0x80 | x[2]]) + (x[1] % (1 << 8 * x[2])).to_bytes(x[2], "big")
    ),
)


@settings(max_examples=1000, deadline=None)
@given(HEADERS, st.integers(0, 600))
@example(b"\x30\x82\x00\xff", 255)
@example(b"\x30\x85\x00\x00\x00\x00\x80", 128)
@example(b"\x30\x81\x7f", 127)
@example(b"\x30\x81\x80", 128)
@example(b"\x30\x80", 0)
def test_headers(front: bytes, behind: int) -> None:
    """An element is read where the second program reads one, and has the same contents."""
    octets = front + bytes(behind)
    theirs = READING.element(octets)
    try:
        tag, start, stop = der.header(octets, 0, len(octets))
    except der.Malformed:
        assert isinstance(theirs, str)
    else:
        assert (tag, octets[start:stop], stop) == theirs


@settings(max_examples=1000, deadline=None)
@given(st.sampled_from([0x17, 0x18]), st.lists(st.integers(0, 99), min_size=6, max_size=7), st.booleans())
@example(0x17, [49, 12, 31, 23, 59, 59], True)
@example(0x17, [50, 1, 1, 0, 0, 0], True)
@example(0x18, [19, 0, 2, 29, 0, 0, 0], True)
@example(0x18, [20, 0, 2, 29, 0, 0, 0], True)
@example(0x18, [0, 0, 2, 29, 0, 0, 0], True)
@example(0x18, [20, 24, 1, 1, 24, 0, 0], True)
@example(0x18, [20, 24, 1, 1, 0, 60, 0], True)
@example(0x18, [20, 24, 1, 1, 0, 0, 60], True)
def test_times(tag: int, pairs: list[int], fits: bool) -> None:
    """A time is read where the second program reads one, and is the same."""
    if fits:
        # Of most days, hours, minutes and seconds there are some.
        pairs[-5:] = [pair % most for pair, most in zip(pairs[-5:], (14, 33, 25, 61, 61))]
    octets = "".join(f"{pair:02}" for pair in pairs).encode() + b"Z"
    try:
        theirs = READERS.time_in(octets, tag)
    except READERS.Malformed:
        theirs = None
    try:
        assert der.seconds(tag, octets) == theirs
    except der.Malformed:
        assert theirs is None


def test_scenarios(monkeypatch: pytest.MonkeyPatch) -> None:
    """Each entry of a job in a scenario is read as the second program reads it."""
    seen: dict[tuple[bytes, bytes], Any] = {}
    post_init = READERS.FoundEntry.__post_init__

    def recorded(found: Any) -> None:
        post_init(found)
        seen[(bytes(found.leaf), bytes(found.extra))] = found

    monkeypatch.setattr(READERS.FoundEntry, "__post_init__", recorded)
    world = made.second_program("scenario_commands").World
    for name in ("publishing.txt", "gathering.txt", "faults.txt", "rebases.txt", "audits.txt"):
        text = (made.TOP / "crates" / "scenarios" / "data" / name).read_text(encoding="utf-8")
        STAGE.transcript(text, world)
    assert len(seen) > 10
    for (leaf, extra), found in seen.items():
        agrees(leaf, extra, found)


def agrees(leaf: bytes, extra: bytes, found: Any = None) -> EntryFacts | None:
    """An entry's facts, which are those of the second program."""
    theirs = found or READERS.FoundEntry(made.LOG, leaf, extra)
    ours = read_entry(leaf, extra)
    if theirs.id is None:
        assert ours is None
    else:
        assert ours is not None
        assert (ours.issuer, len(ours.serial), ours.serial) == theirs.id
        assert (ours.time, ours.until) == (theirs.time, theirs.until)
    return ours


# ---- random certificates, and random damage


def made_entries() -> list[tuple[bytes, bytes]]:
    """Entries of certificates and of precertificates, with many extensions and few."""
    authority, other = made.Authority.of("elm"), made.Authority.of("oak")
    shapes: list[list[tuple[x509.ExtensionType, bool]]] = [
        [],
        [(made.points("http://crl.example/1.crl", "http://crl.example/2.crl"), False)],
        [
            (x509.BasicConstraints(False, None), True),
            (x509.SubjectAlternativeName([x509.DNSName("site.example")]), False),
            (made.points("http://crl.example/1.crl"), False),
        ],
    ]
    found = []
    for number, shape in enumerate(shapes * 4):
        certificate = authority.issue(1 + (number << (9 * number)), shape)
        time = made.MOMENT + number
        found.append(made.x509_entry(made.der_of(certificate), [authority.der, other.der][: 1 + number % 2], time))
        hashed = pki.issuer_hash(authority.der)
        found.append(made.precertificate_entry(certificate.tbs_certificate_bytes, hashed, time))
    return found


MADE = made_entries()


def damaged(chosen: random.Random) -> tuple[bytes, bytes]:
    """One of the entries, in which some bytes are others, mostly among the first, or of which the end is cut."""
    leaf, extra = (bytearray(octets) for octets in chosen.choice(MADE))
    for _ in range(chosen.choice((0, 1, 1, 1, 2, 4))):
        octets = extra if extra and chosen.random() < 0.3 else leaf
        place = chosen.randrange(min(len(octets), chosen.choice((20, 80, 200, 2000))))
        octets[place] = chosen.choice(
            (0, 1, 2, 3, 0x17, 0x18, 0x30, 0x7F, 0x80, 0x81, 0xA0, 0xFF, chosen.randrange(256))
        )
    if chosen.random() < 0.05:
        del leaf[chosen.randrange(len(leaf)) :]
    if chosen.random() < 0.05:
        extra += bytes(chosen.randrange(4))
    return bytes(leaf), bytes(extra)


def test_damage_by_the_second_program() -> None:
    chosen = random.Random(7)
    read = [agrees(*damaged(chosen)) for _ in range(20000)]
    assert 2000 < sum(facts is None for facts in read) < 18000
    assert sum(facts is not None and facts.until is None for facts in read) > 100
    assert sum(facts is not None and facts.points is None for facts in read) > 100


@settings(max_examples=300, deadline=None)
@given(st.binary(max_size=200), st.binary(max_size=200))
def test_any_bytes(leaf: bytes, extra: bytes) -> None:
    agrees(leaf, extra)
    agrees(bytes(12) + leaf, extra)


@pytest.fixture(name="by_program", scope="module")
def fixture_by_program(tmp_path_factory: pytest.TempPathFactory) -> tuple[Path, list[tuple[EntryFacts | None, bytes]]]:
    """A folder with a job of 3,000 damaged entries, each in the job once, and what is read of them. Every second serial
    is listed."""
    chosen, folder = random.Random(8), tmp_path_factory.mktemp("entries")
    shown = list(dict.fromkeys(damaged(chosen) for _ in range(3000)))
    read = [(read_entry(*entry), entry[0]) for entry in shown]
    known = [facts for facts, _ in read if facts is not None]
    by_issuer = {issuer: {facts.serial for facts in known if facts.issuer == issuer} for issuer in issuers_of(known)}
    with open(folder / "job", "wb") as file, JobWriter(file) as job:
        job.header(1, made.MOMENT)
        job.range(made.LOG, 0, (1 << 64) - 1)
        for issuer, serials in sorted(by_issuer.items()):
            job.crl(issuer, made.unsigned_crl(sorted(serials)[::2]))
        for leaf, extra in shown:
            job.entry(made.LOG, leaf, extra)
    return folder, read


def issuers_of(known: list[EntryFacts]) -> set[bytes]:
    return {facts.issuer for facts in known}


def test_counts_by_the_program(by_program: tuple[Path, list[tuple[EntryFacts | None, bytes]]]) -> None:
    folder, read = by_program
    known = [facts for facts, _ in read if facts is not None]
    identities = {(facts.issuer, facts.serial) for facts in known}
    line = Engine(made.PROGRAM).snapshot(folder / "job", folder / "part", folder / "ledger", 2)
    assert line.unread == len(read) - len(known) > 500
    assert (line.accepted, line.uncovered, line.unenrolled, line.late) == (len(known), 0, 0, 0)
    assert (line.universe, line.issuers) == (len(identities), len(issuers_of(known)))


def test_dates_by_the_program(by_program: tuple[Path, list[tuple[EntryFacts | None, bytes]]]) -> None:
    """A rebase prunes exactly the identities whose date is before its moment."""
    folder, read = by_program
    engine = Engine(made.PROGRAM)
    engine.snapshot(folder / "job", folder / "part", folder / "ledger", 2)
    dates: dict[tuple[bytes, bytes], int | None] = {}
    for facts in (facts for facts, _ in read if facts is not None):
        key = (facts.issuer, facts.serial)
        before = dates.get(key, facts.until)
        dates[key] = None if before is None or facts.until is None else max(before, facts.until)
    told = sorted({1000 * date for date in dates.values() if date is not None and date > 0})
    moments = [1, *told[:: max(1, len(told) // 8)], told[-1] + 1]
    for moment in moments:
        line = engine.rebase(folder / "ledger", moment, folder / "base", folder / "next", 2)
        assert line.pruned == sum(date is not None and 1000 * date < moment for date in dates.values())


def test_identities_by_the_program(by_program: tuple[Path, list[tuple[EntryFacts | None, bytes]]]) -> None:
    """What is listed in each issuer's CRL reads as revoked, and all others as good."""
    folder, read = by_program
    known = [facts for facts, _ in read if facts is not None]
    ranked = {issuer: sorted({x.serial for x in known if x.issuer == issuer}) for issuer in issuers_of(known)}
    queries = [queried(facts) for facts in known]
    (folder / "queries").write_bytes(b"CLUBQRY1" + len(queries).to_bytes(4, "big") + b"".join(queries))
    rehearsed = Engine(made.PROGRAM).rehearse(folder / "queries", 2, [folder / "job"])
    expected = ["GOOD" if ranked[facts.issuer].index(facts.serial) % 2 else "REVOKED" for facts in known]
    assert [verdict.name for verdict in rehearsed.verdicts] == expected


def queried(facts: EntryFacts) -> bytes:
    """A query of an entry's identity at its time."""
    return b"".join(
        (facts.issuer, made.vector(facts.serial, 1), b"\x01", made.LOG, facts.time.to_bytes(8, "big")),
    )


# ---- distribution points, against cryptography


def all_points() -> Iterator[tuple[x509.ExtensionType, bool]]:
    yield made.points("http://crl.example/1.crl"), False
    yield made.points("http://crl.example/1.crl", "ldap://crl.example/2"), True


@pytest.mark.parametrize("points, critical", all_points())
def test_points(points: x509.CRLDistributionPoints, critical: bool) -> None:
    authority = made.Authority.of("elm")
    certificate = authority.issue(5, [(x509.BasicConstraints(False, None), True), (points, critical)])
    names = tuple(name.value for point in points for name in point.full_name or ())
    for leaf, extra in (
        made.x509_entry(made.der_of(certificate), [authority.der], made.MOMENT),
        made.precertificate_entry(certificate.tbs_certificate_bytes, bytes(32), made.MOMENT),
    ):
        facts = read_entry(leaf, extra)
        assert facts is not None and facts.points is not None
        assert pki.point_urls(facts.points) == names


def test_no_points() -> None:
    authority = made.Authority.of("elm")
    shapes: list[list[tuple[x509.ExtensionType, bool]]] = [[], [(x509.BasicConstraints(False, None), True)]]
    for shape in shapes:
        certificate = made.der_of(authority.issue(5, shape))
        facts = read_entry(*made.x509_entry(certificate, [authority.der], made.MOMENT))
        assert facts is not None and facts.points is None
    assert pki.point_urls(b"") == pki.point_urls(b"\x30\x03") == pki.point_urls(b"\x30\x00") == ()
