"""Tests of the module, on the library that it loads and the store that the repository ships (README.md, "Try it")."""

import copy
import ctypes
import hashlib
import mmap
import os
import pathlib
import pickle
import shutil
import subprocess
import tracemalloc
from concurrent.futures import ThreadPoolExecutor
from typing import Any, Callable, Iterator, List, Tuple

import pytest

from clubcard import (
    By,
    Facts,
    Part,
    Query,
    Refusal,
    Refused,
    Sighting,
    Store,
    Verdict,
    answers,
    check_part,
    library,
    place,
    serial_from_int,
)

SHIPPED = pathlib.Path(__file__).resolve().parents[2] / "crates" / "clubcard" / "data" / "one_revoked.store"
STORE = SHIPPED.read_bytes()
ISSUER = b"\x11" * 32
SERIAL = b"\x05"
SEEN = Sighting(b"\xaa" * 32, 1700000000000)
LATE = Sighting(b"\xaa" * 32, 1700000001001)
# What README.md says of the store, and what no part knows.
ROWS = [
    (ISSUER, SERIAL, SEEN, Verdict.REVOKED),
    (ISSUER, SERIAL, LATE, Verdict.NOT_COVERED),
    (b"\x22" * 32, SERIAL, SEEN, Verdict.NOT_ENROLLED),
]
# The store's head, and the snapshot behind it.
HEAD = 10
SNAPSHOT = STORE[HEAD:]
# What isn't bytes-like, and might be taken for some.
NO_BYTES: List[Any] = [5, 0, True, "05", "", None, [5], (5,), 5.0, {5}, range(5), SEEN]

Calls = List[Callable[[], object]]


@pytest.fixture(name="store")
def shipped_store() -> Store:
    return Store(STORE)


# ---- answers


@pytest.mark.parametrize("issuer, serial, sighting, verdict", ROWS)
def test_rows(store: Store, issuer: bytes, serial: bytes, sighting: Sighting, verdict: Verdict) -> None:
    assert store.query(issuer, serial, [sighting]) is verdict
    assert store.query_each([Query(issuer, serial, [sighting])]) == [verdict]


def test_many_queries(store: Store) -> None:
    queries = [Query(issuer, serial, [sighting]) for issuer, serial, sighting, _ in ROWS]
    assert store.query_each(queries) == [verdict for _, _, _, verdict in ROWS]
    assert store.query_each(iter(queries)) == store.query_each(queries)
    # The sightings of one query are none of the next one's.
    assert store.query_each([Query(ISSUER, SERIAL, [LATE, SEEN]), Query(ISSUER, SERIAL, [LATE])]) == [
        Verdict.REVOKED,
        Verdict.NOT_COVERED,
    ]
    assert store.query_each([]) == []


def test_no_sightings(store: Store) -> None:
    assert store.query(ISSUER, SERIAL, []) is Verdict.NOT_COVERED
    assert store.query_each([Query(ISSUER, SERIAL, [])]) == [Verdict.NOT_COVERED]


def test_facts(store: Store) -> None:
    assert store.examine() == Facts(parts=1, newest_epoch=1)
    assert Store.from_file(SHIPPED).examine() == store.examine()
    assert Store.from_file(str(SHIPPED)).examine() == store.examine()


@pytest.mark.parametrize("length", [0, 33, 40, (1 << 16) + 1])
def test_serial_of_another_length(store: Store, length: int) -> None:
    with pytest.raises(Refused) as raised:
        store.query(ISSUER, SERIAL * length, [SEEN])
    assert raised.value.refusal is Refusal.BAD_SERIAL
    assert store.query_each([Query(ISSUER, SERIAL * length, [SEEN])]) == [Refusal.BAD_SERIAL]


def test_no_store() -> None:
    calls: List[Callable[[Store], object]] = [
        lambda store: store.query(ISSUER, SERIAL, [SEEN]),
        lambda store: store.query_cert(b"", b""),
        lambda store: store.query_each([Query(ISSUER, SERIAL, [SEEN])]),
        lambda store: store.query_each([]),
        lambda store: store.examine(),
    ]
    for call in calls:
        for data, refusal in [
            (b"", Refusal.LAYOUT_SHORT),
            (STORE[:-1], Refusal.LAYOUT_SHORT),
            (STORE + b"\0", Refusal.LAYOUT_VALUE),
            (STORE[:-1] + bytes([STORE[-1] ^ 1]), Refusal.LAYOUT_DIGEST),
        ]:
            with pytest.raises(Refused) as raised:
                call(Store(data))
            assert raised.value.refusal is refusal
            assert raised.value.number == refusal.value
            assert 0 <= raised.value.offset <= len(data)
            assert str(raised.value) == f"{refusal.name} at {raised.value.offset}"


@pytest.mark.parametrize(
    "data, field", [(STORE[:5], "store.magic"), (STORE[:-1], "part.trailer"), (STORE + b"\0", "end")]
)
def test_the_field_at_fault(data: bytes, field: str) -> None:
    with pytest.raises(Refused) as raised:
        Store(data).examine()
    assert raised.value.field == field


def test_places() -> None:
    for by, serial, found in [(By.ISSUER, SERIAL, 49925), (By.ISSUER, b"\6", 49925), (By.IDENTITY, SERIAL, 44354)]:
        assert place(by, ISSUER, bytearray(serial), 65536) == found
        assert place(by, ISSUER, serial, 1) == 0
    for serial, count, refusal in [
        (b"", 0, Refusal.BAD_SERIAL),
        (bytes(33), 1, Refusal.BAD_SERIAL),
        *((SERIAL, count, Refusal.BAD_PLACES) for count in (-1, 0, 65537, (1 << 32) + 1, (1 << 64) + 1)),
    ]:
        with pytest.raises(Refused) as raised:
            place(By.IDENTITY, ISSUER, serial, count)
        assert raised.value.refusal is refusal
    with pytest.raises(TypeError):
        place(By.ISSUER, ISSUER, SERIAL, 1.5)  # type: ignore[arg-type]


def test_covered_until(store: Store) -> None:
    assert store.covered_until(SEEN.log) == SEEN.time + 1000
    assert store.covered_until(bytearray(SEEN.log)) == SEEN.time + 1000
    assert store.covered_until(ISSUER) is None
    with pytest.raises(Refused):
        Store(b"").covered_until(SEEN.log)
    with pytest.raises(ValueError, match="has 32 bytes"):
        store.covered_until(b"")


@pytest.mark.parametrize("words", [1 << 40, 1 << 61, (1 << 64) - 1])
def test_an_index_for_which_there_is_no_memory(words: int, monkeypatch: pytest.MonkeyPatch) -> None:
    def count(_: int, __: int, written: Any) -> int:
        written._obj.value = words
        return answers.DONE

    monkeypatch.setattr(library.LIBRARY, "clubcard_index_length", count)
    with pytest.raises(Refused) as raised:
        Store(STORE).examine()
    assert raised.value.refusal is Refusal.NO_MEMORY


def test_no_certificate(store: Store) -> None:
    with pytest.raises(Refused) as raised:
        store.query_cert(b"\x30\x00", b"\x30\x00")
    assert raised.value.refusal is Refusal.CERT_MALFORMED
    assert str(raised.value) == "CERT_MALFORMED"


# ---- parts


def delta(epoch: int = 2, parent: bytes = STORE[-32:], to: int = SEEN.time + 2000) -> bytes:
    """A delta of one range and no block, by the layout of docs/FORMATS.md."""
    octets = b"CLUBCARD\1\1" + epoch.to_bytes(8, "big") + parent + b"\0\1" + SEEN.log
    octets += SEEN.time.to_bytes(8, "big") + to.to_bytes(8, "big") + b"\0\0\0\0"
    return octets + hashlib.sha256(octets).digest()


def test_check_part() -> None:
    assert check_part(SNAPSHOT) == Part(False, 1, 1, 1, STORE[-32:])
    assert check_part(memoryview(delta())) == Part(True, 2, 1, 0, delta()[-32:])
    for octets, refusal, offset, field in [
        (b"", Refusal.LAYOUT_SHORT, 0, "part.magic"),
        (SNAPSHOT[:-1], Refusal.LAYOUT_SHORT, len(SNAPSHOT) - 32, "part.trailer"),
        (SNAPSHOT[:-1] + b"\0", Refusal.LAYOUT_DIGEST, len(SNAPSHOT) - 32, "part.trailer"),
        (SNAPSHOT + b"\0", Refusal.LAYOUT_VALUE, len(SNAPSHOT), "end"),
        (STORE, Refusal.LAYOUT_VALUE, 0, "part.magic"),
    ]:
        with pytest.raises(Refused) as raised:
            check_part(octets)
        assert (raised.value.refusal, raised.value.offset, raised.value.field) == (refusal, offset, field)


def test_install(store: Store) -> None:
    made = store.install(delta())
    assert type(made) is bytes
    assert made == STORE[: HEAD - 1] + b"\2" + SNAPSHOT + delta()
    newer = Store(made)
    assert newer.examine() == Facts(parts=2, newest_epoch=2)
    assert newer.covered_until(SEEN.log) == SEEN.time + 2000
    assert newer.query(ISSUER, SERIAL, [SEEN]) is Verdict.REVOKED
    assert newer.query(ISSUER, SERIAL, [LATE]) is Verdict.NOT_ENROLLED
    assert store.examine() == Facts(parts=1, newest_epoch=1)


def test_parts_that_are_not_installed(store: Store) -> None:
    for part, refusal in [
        (SNAPSHOT, Refusal.NOT_DELTA),
        (delta(parent=ISSUER), Refusal.WRONG_PARENT),
        (delta(epoch=1), Refusal.OLD_EPOCH),
        (delta(to=SEEN.time + 999), Refusal.COVERAGE_SHRINKS),
        (b"", Refusal.LAYOUT_SHORT),
        (delta() + b"\0", Refusal.LAYOUT_VALUE),
    ]:
        with pytest.raises(Refused) as raised:
            store.install(part)
        assert raised.value.refusal is refusal
        assert bool(raised.value.field) == refusal.name.startswith("LAYOUT")
    with pytest.raises(Refused):
        Store(STORE[:-1]).install(delta())


# ---- what a verdict may be taken for


def test_a_verdict_is_no_number_and_no_truth() -> None:
    for answer in (*Verdict, *Refusal):
        assert not isinstance(answer, int)
        assert answer != answer.value
        with pytest.raises(TypeError, match="neither true nor false"):
            bool(answer)
    assert str(Verdict.GOOD) == f"{Verdict.GOOD}" == "Verdict.GOOD"
    assert pickle.loads(pickle.dumps(Verdict.GOOD)) is copy.deepcopy(Verdict.GOOD) is Verdict.GOOD


def test_refused_is_copied() -> None:
    for refused in [
        Refused(Refusal.LAYOUT_VALUE, 177),
        Refused(Refusal.CERT_NO_SCTS),
        Refused(Refusal.UNKNOWN, 0, 99),
        Refused(Refusal.LAYOUT_SHORT, 147, field="part.trailer"),
    ]:
        for again in [pickle.loads(pickle.dumps(refused)), copy.copy(refused), copy.deepcopy(refused)]:
            assert type(again) is Refused
            assert (again.refusal, again.offset, again.number) == (refused.refusal, refused.offset, refused.number)
            assert again.field == refused.field
            assert str(again) == str(refused)


@pytest.mark.parametrize("number", [0, 5, 99, 113, (1 << 32) - 1])
def test_unknown_number(store: Store, number: int, monkeypatch: pytest.MonkeyPatch) -> None:
    monkeypatch.setattr(library.LIBRARY, "clubcard_ask", lambda *_: number)
    monkeypatch.setattr(library.LIBRARY, "clubcard_ask_cert", lambda *_: number)
    calls: Calls = [lambda: store.query(ISSUER, SERIAL, [SEEN]), lambda: store.query_cert(b"", b"")]
    for call in calls:
        with pytest.raises(Refused) as raised:
            call()
        assert raised.value.refusal is Refusal.UNKNOWN
        assert raised.value.number == number
        assert str(number) in str(raised.value)


@pytest.mark.parametrize("number", [1, 4, 99])
def test_number_of_another_call(store: Store, number: int, monkeypatch: pytest.MonkeyPatch) -> None:
    for call_of_it in ("ask_each", "check_part", "install"):
        monkeypatch.setattr(library.LIBRARY, f"clubcard_{call_of_it}", lambda *_: number)
    calls: Calls = [lambda: store.query_each([]), lambda: check_part(b""), lambda: store.install(b"")]
    store.examine()
    monkeypatch.setattr(library.LIBRARY, "clubcard_open", lambda *_: number)
    calls.append(Store(STORE).examine)
    for call in calls:
        with pytest.raises(Refused) as raised:
            call()
        assert raised.value.refusal is Refusal.UNKNOWN
        assert raised.value.number == number


def test_unknown_number_of_one_query(store: Store, monkeypatch: pytest.MonkeyPatch) -> None:
    monkeypatch.setattr(library.LIBRARY, "clubcard_ask_each", lambda *_: answers.DONE)
    # Nothing was written to the place of the answer: it is 0, which is no verdict.
    assert store.query_each([Query(ISSUER, SERIAL, [SEEN])]) == [Refusal.UNKNOWN]


# ---- what isn't bytes


@pytest.mark.parametrize("given", NO_BYTES, ids=repr)
def test_bytes_are_wanted(store: Store, given: Any) -> None:
    calls: Calls = [
        lambda: Store(given),
        lambda: check_part(given),
        lambda: store.install(given),
        lambda: store.covered_until(given),
        lambda: store.query(given, SERIAL, [SEEN]),
        lambda: store.query(ISSUER, given, [SEEN]),
        lambda: store.query_cert(given, b""),
        lambda: store.query_cert(b"", given),
        lambda: Sighting(given, SEEN.time),
        lambda: Query(given, SERIAL, [SEEN]),
        lambda: Query(ISSUER, given, [SEEN]),
    ]
    for call in calls:
        with pytest.raises(TypeError, match=f"is given as bytes, and not as {type(given).__name__}|serial_from_int"):
            call()


def test_items_of_one_byte_are_wanted() -> None:
    words = memoryview(bytes(STORE) + b"\0").cast("I")
    for given in [words, memoryview(STORE)[::2]]:
        with pytest.raises(TypeError, match="items of one byte"):
            Store(given)


@pytest.mark.parametrize("given", [b"", b"\x11" * 31, b"\x11" * 33])
def test_keys_of_another_length(store: Store, given: bytes) -> None:
    calls: Calls = [
        lambda: store.query(given, SERIAL, [SEEN]),
        lambda: Query(given, SERIAL, [SEEN]),
        lambda: Sighting(given, SEEN.time),
    ]
    for call in calls:
        with pytest.raises(ValueError, match="has 32 bytes"):
            call()


@pytest.mark.parametrize("given", ["1700000000000", None, 1.7e12, b"\0"], ids=repr)
def test_a_time_is_an_int(given: Any) -> None:
    with pytest.raises(TypeError, match="a time is given as int"):
        Sighting(SEEN.log, given)


@pytest.mark.parametrize("given", [-1, 1 << 64])
def test_a_time_has_64_bits(given: int) -> None:
    with pytest.raises(ValueError, match="64 bits"):
        Sighting(SEEN.log, given)


def test_sightings_and_queries_are_wanted(store: Store) -> None:
    no_sightings: List[Any] = [[(SEEN.log, SEEN.time)], [SEEN.log], SEEN.log, [None]]
    for given in no_sightings:
        with pytest.raises(TypeError, match="a Sighting is wanted"):
            store.query(ISSUER, SERIAL, given)
        with pytest.raises(TypeError, match="a Sighting is wanted"):
            Query(ISSUER, SERIAL, given)
    not_listed: Any = SEEN
    with pytest.raises(TypeError):
        store.query(ISSUER, SERIAL, not_listed)
    no_query: Any = (ISSUER, SERIAL, [SEEN])
    with pytest.raises(TypeError, match="a Query is wanted"):
        store.query_each([no_query])


# ---- serials


# The contents octets of INTEGERs as "A Layman's Guide to a Subset of ASN.1, BER, and DER" (5.7) lists them, and a
# serial whose first octet would be taken for a sign.
@pytest.mark.parametrize(
    "number, octets", [(0, "00"), (127, "7f"), (128, "0080"), (256, "0100"), (0xD00A, "00d00a"), (0x7FFF, "7fff")]
)
def test_serial_from_int(number: int, octets: str) -> None:
    assert serial_from_int(number).hex() == octets


@pytest.mark.skipif(shutil.which("openssl") is None, reason="there is no openssl")
@pytest.mark.parametrize("number", [0, 5, 255, 0xD00A, 1 << 64, (1 << 159) - 1, 1 << 159, (1 << 255) - 1])
def test_serial_from_int_by_openssl(number: int, tmp_path: pathlib.Path) -> None:
    der = tmp_path / "integer"
    command = ["openssl", "asn1parse", "-genstr", f"INTEGER:0x{number:x}", "-noout", "-out", str(der)]
    subprocess.run(command, check=True, stdin=subprocess.DEVNULL, timeout=60)
    octets = serial_from_int(number)
    assert der.read_bytes() == bytes([2, len(octets)]) + octets


def test_serial_from_int_of_the_store(store: Store) -> None:
    assert store.query(ISSUER, serial_from_int(5), [SEEN]) is Verdict.REVOKED


def test_serials_that_no_store_knows() -> None:
    assert len(serial_from_int((1 << 255) - 1)) == 32
    for number, words in [(-1, "0 or greater"), (1 << 255, "32 octets at most, and not 33")]:
        with pytest.raises(ValueError, match=words):
            serial_from_int(number)
    no_ints: List[Any] = [b"\x05", "5", 5.0, None, True]
    for given in no_ints:
        with pytest.raises(TypeError, match="a number is given as int"):
            serial_from_int(given)


# ---- bytes that are lent


@pytest.fixture(name="addresses")
def recorded_addresses(monkeypatch: pytest.MonkeyPatch) -> Iterator[List[Tuple[int, int]]]:
    """The address and the length of each store that is opened."""
    opens, seen = library.LIBRARY.clubcard_open, []

    def record(address: int, length: int, *rest: Any) -> Any:
        seen.append((address, length))
        return opens(address, length, *rest)

    monkeypatch.setattr(library.LIBRARY, "clubcard_open", record)
    yield seen


def test_a_store_is_lent_where_it_lies(addresses: List[Tuple[int, int]]) -> None:
    writable = bytearray(STORE)
    address = ctypes.addressof(ctypes.c_char.from_buffer(writable))
    padded = bytearray(b"\0" * 8 + STORE + b"\0")
    inside = ctypes.addressof(ctypes.c_char.from_buffer(padded)) + 8
    constant = ctypes.cast(ctypes.c_char_p(STORE), ctypes.c_void_p).value
    for given, lies_at in [
        (STORE, constant),
        (memoryview(STORE), constant),
        (writable, address),
        (memoryview(writable), address),
        (memoryview(writable).toreadonly(), address),
        (memoryview(padded)[8:-1], inside),
    ]:
        assert Store(given).examine() == Facts(1, 1)
        assert addresses.pop() == (lies_at, len(STORE))


@pytest.mark.parametrize("access", [mmap.ACCESS_READ, mmap.ACCESS_COPY])
def test_a_mapped_file_of_64_mib(tmp_path: pathlib.Path, access: int) -> None:
    name = tmp_path / "store"
    name.write_bytes(STORE)
    os.truncate(name, 64 << 20)
    with open(name, "rb") as file, mmap.mmap(file.fileno(), 0, access=access) as mapped:
        tracemalloc.start()
        try:
            store = Store(mapped)
            # Bytes lie behind the last part, and the call says where.
            with pytest.raises(Refused, match=f"LAYOUT_VALUE at {len(STORE)}"):
                store.query(ISSUER, SERIAL, [SEEN])
            part = Store(memoryview(mapped)[: len(STORE)])
            assert part.query(ISSUER, SERIAL, [SEEN]) is Verdict.REVOKED
            del part
            _, peak = tracemalloc.get_traced_memory()
        finally:
            tracemalloc.stop()
        assert peak < 1 << 20
    # A store doesn't keep the file open, and no call reads what is closed.
    with pytest.raises(ValueError):
        store.examine()


def ask_by_each_call(store: Store) -> None:
    assert store.query(ISSUER, SERIAL, [SEEN]) is Verdict.REVOKED
    assert store.query_each([Query(ISSUER, SERIAL, [SEEN])]) == [Verdict.REVOKED]
    assert store.covered_until(SEEN.log) == SEEN.time + 1000
    assert store.examine() == Facts(1, 1)


def test_a_store_is_opened_once(addresses: List[Tuple[int, int]]) -> None:
    for given in [STORE, memoryview(STORE), memoryview(bytearray(STORE)).toreadonly()]:
        store = Store(given)
        assert not addresses
        ask_by_each_call(store)
        ask_by_each_call(store)
        assert len(addresses) == 1
        addresses.clear()


def test_what_can_be_written_is_opened_by_each_call(addresses: List[Tuple[int, int]]) -> None:
    for given in [bytearray(STORE), memoryview(bytearray(STORE))]:
        ask_by_each_call(Store(given))
        assert len(addresses) == 4
        addresses.clear()


def test_threads_ask_one_store() -> None:
    store = Store(STORE)

    def ask_often(_: int) -> None:
        for _ in range(100):
            ask_by_each_call(store)

    with ThreadPoolExecutor(8) as pool:
        list(pool.map(ask_often, range(8)))


def test_a_store_is_read_anew(store: Store) -> None:
    data = bytearray(b"\0" * len(STORE))
    changing = Store(data)
    with pytest.raises(Refused):
        changing.examine()
    data[:] = STORE
    assert changing.examine() == store.examine()
    # Between calls nothing is held.
    data.append(0)
    with pytest.raises(Refused):
        changing.examine()


def test_other_bytes_are_taken(store: Store) -> None:
    for as_given in [bytearray, memoryview]:
        sighting = Sighting(as_given(SEEN.log), SEEN.time)
        assert sighting == SEEN
        assert store.query(as_given(ISSUER), as_given(SERIAL), [sighting]) is Verdict.REVOKED
        query = Query(as_given(ISSUER), as_given(SERIAL), iter([sighting]))  # type: ignore[arg-type]
        assert query == Query(ISSUER, SERIAL, (SEEN,))
        assert hash(query) == hash(Query(ISSUER, SERIAL, (SEEN,)))


# ---- the library


def compiled(folder: pathlib.Path, source: str) -> str:
    """The file of a library of this source in C."""
    (folder / "other.c").write_text(source, encoding="ascii")
    name = str(folder / "other.so")
    subprocess.run(["cc", "-shared", "-fPIC", "-o", name, str(folder / "other.c")], check=True, timeout=60)
    return name


needs_cc = pytest.mark.skipif(shutil.which("cc") is None, reason="there is no cc")


@needs_cc
def test_the_interface_comes_first(tmp_path: pathlib.Path) -> None:
    name = compiled(tmp_path, "unsigned clubcard_interface(void) { return 1; }")
    with pytest.raises(ImportError, match="has the interface 1, and this module is for 2"):
        library.load(name)


@needs_cc
def test_a_library_that_is_another(tmp_path: pathlib.Path) -> None:
    name = compiled(tmp_path, "int some(void) { return 1; }")
    with pytest.raises(ImportError, match="has no clubcard_interface"):
        library.load(name)


@needs_cc
def test_a_library_that_lacks_a_call(tmp_path: pathlib.Path) -> None:
    name = compiled(tmp_path, "unsigned clubcard_interface(void) { return 2; }")
    with pytest.raises(ImportError, match="has no clubcard_query"):
        library.load(name)


def test_no_library(tmp_path: pathlib.Path) -> None:
    with pytest.raises(ImportError, match="CLUBCARD_LIBRARY"):
        library.load(str(tmp_path / "absent.so"))
