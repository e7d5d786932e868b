"""A store, what it is asked, and what it holds; and a part."""

import contextlib
import ctypes
import operator
import os
import pathlib
import struct
from dataclasses import dataclass
from typing import Iterable, Iterator, List, NamedTuple, Optional, Sequence, Tuple, Union

from .answers import DONE, Refusal, Refused, Verdict, answer_of, refused_by
from .library import (
    FIELDS,
    LIBRARY,
    LentInstallFacts,
    LentPartFacts,
    LentQuery,
    LentSighting,
    LentStoreFacts,
)
from .octets import MAX_SERIAL, BytesLike, bytes_like, key_of, lent, octets_of, serial_of
from .places import By

_ISSUER, _LOG = "an issuer's key hash", "a log's id"
# The most places into which a history is cut (`MAX_PLACES` of the crate place_core).
_MAX_PLACES = 65536
# The fields of LentSighting and of LentQuery; bytes that are too short are filled up with zeros.
_SIGHTING = struct.Struct("=32sQ")
_QUERY = struct.Struct("=32s32s4I")


@dataclass(frozen=True)
class Sighting:
    """When a log saw a certificate: the log's id of 32 bytes (RFC 6962, 3.2), and milliseconds since 1970."""

    log: bytes
    time: int

    def __post_init__(self) -> None:
        object.__setattr__(self, "log", key_of(self.log, _LOG))
        object.__setattr__(self, "time", _time_of(self.time))


@dataclass(frozen=True)
class Query:
    """A certificate: the SHA-256 of its issuer's SubjectPublicKeyInfo, its serial's octets, and when logs saw it."""

    issuer: bytes
    serial: bytes
    sightings: Sequence[Sighting]

    def __post_init__(self) -> None:
        object.__setattr__(self, "issuer", key_of(self.issuer, _ISSUER))
        object.__setattr__(self, "serial", serial_of(self.serial))
        object.__setattr__(self, "sightings", _listed(self.sightings))


class Facts(NamedTuple):
    """What a store holds: how many parts, and the newest one's epoch."""

    parts: int
    newest_epoch: int


class Part(NamedTuple):
    """What a part holds: whether it is a delta or a snapshot, its epoch, how many ranges of logs and how many issuers'
    blocks it has, and its trailer, the SHA-256 of the bytes before it."""

    is_delta: bool
    epoch: int
    ranges: int
    issuers: int
    trailer: bytes


@dataclass(frozen=True)
class _Opened:
    """A store that was opened: where its bytes lie and how many they are, its index, and what it holds."""

    address: Optional[int]
    length: int
    index: "ctypes.Array[ctypes.c_uint32]"
    facts: Facts

    @property
    def parameters(self) -> Tuple[Optional[int], int, "ctypes.Array[ctypes.c_uint32]", int]:
        """What each call on an opened store is lent first."""
        return self.address, self.length, self.index, len(self.index)


def _time_of(time: int) -> int:
    """A time of 64 bits. Another one is a ValueError, since ctypes would cut it."""
    try:
        milliseconds = operator.index(time)
    except TypeError:
        raise TypeError(f"a time is given as int, and not as {type(time).__name__}") from None
    if not 0 <= milliseconds < 1 << 64:
        raise ValueError("a time is a number of milliseconds since 1970, of 64 bits")
    return milliseconds


def _listed(sightings: Iterable[Sighting]) -> Tuple[Sighting, ...]:
    """The sightings, each of which is one."""
    listed = tuple(sightings)
    for sighting in listed:
        if not isinstance(sighting, Sighting):
            raise TypeError(f"a Sighting is wanted, and not {type(sighting).__name__}")
    return listed


def _lent_sightings(sightings: Sequence[Sighting]) -> "ctypes.Array[LentSighting]":
    """The sightings in the layout of C."""
    octets = bytearray().join(_SIGHTING.pack(sighting.log, sighting.time) for sighting in sightings)
    return (LentSighting * len(sightings)).from_buffer(octets)


def _lent_query(issuer: bytes, serial: bytes, first_sighting: int, sightings: int) -> bytes:
    """A query in the layout of C, with no answer."""
    # Whatever is above the limit is refused alike; a greater number might not fit the field.
    return _QUERY.pack(issuer, serial, min(len(serial), MAX_SERIAL + 1), first_sighting, sightings, 0)


class Store:
    """A store's bytes, given as bytes, bytearray, memoryview or mmap. Whatever isn't bytes-like is a TypeError.

    They aren't copied: each call lends them to the library where they lie. The first call opens the store: it reads the
    bytes whole, and makes an index, by which each later call reads no more than it needs. Any number of threads may
    ask. What is read-only must not change as long as the Store is asked: a file that is mapped is neither written in
    its place nor cut. What can be written, such as a bytearray, stays as it is during a call, and is opened anew by
    each. Each call raises `Refused` where the bytes aren't a store, and for want of memory.
    """

    def __init__(self, data: BytesLike) -> None:
        self._data = bytes_like(data, "a store")
        self._kept: Optional[_Opened] = None
        with memoryview(data) as view:
            self._stays = view.readonly

    @classmethod
    def from_file(cls, name: Union[str, "os.PathLike[str]"]) -> "Store":
        """The store that a file holds, which is read whole."""
        return cls(pathlib.Path(name).read_bytes())

    def query(self, issuer: BytesLike, serial: BytesLike, sightings: Iterable[Sighting]) -> Verdict:
        """The verdict on a certificate by its issuer key's hash and its serial, which logs saw.

        The serial is the contents octets of serialNumber, 1 to 32 of them, as `serial_from_int` makes them of an int.
        With more or none it is `Refused`.
        """
        key, octets, seen = key_of(issuer, _ISSUER), serial_of(serial), _lent_sightings(_listed(sightings))
        with self._opened() as store:
            number = LIBRARY.clubcard_ask(*store.parameters, key, octets, len(octets), seen, len(seen))
        return _verdict_of(number)

    def query_cert(self, cert: BytesLike, issuer_cert: BytesLike) -> Verdict:
        """The verdict on a certificate with its timestamps, by its issuer's certificate, both in DER.

        It has the meaning that the module says where one of the timestamps is of an accepted entry, and so is each that
        a part covers. Where a certificate isn't read, or the first has no timestamps, it is `Refused`.
        """
        leaf, issuer = octets_of(cert, "a certificate"), octets_of(issuer_cert, "an issuer's certificate")
        with self._opened() as store:
            number = LIBRARY.clubcard_ask_cert(*store.parameters, leaf, len(leaf), issuer, len(issuer))
        return _verdict_of(number)

    def query_each(self, queries: Iterable[Query]) -> List[Union[Verdict, Refusal]]:
        """The answers to many queries: of each its verdict, or why there is none."""
        listed = list(queries)
        octets = bytearray()
        seen: List[Sighting] = []
        for query in listed:
            if not isinstance(query, Query):
                raise TypeError(f"a Query is wanted, and not {type(query).__name__}")
            octets += _lent_query(query.issuer, query.serial, len(seen), len(query.sightings))
            seen.extend(query.sightings)
        return self._answers(octets, _lent_sightings(seen))

    def query_seen(self, seen: Iterable[Tuple[bytes, bytes, bytes, int]]) -> List[Union[Verdict, Refusal]]:
        """The answers to queries of one sighting each, without an object for each: issuer, serial, log and time, as
        Query and Sighting have them."""
        octets, sightings = bytearray(), bytearray()
        for place, (issuer, serial, log, time) in enumerate(seen):
            octets += _lent_query(key_of(issuer, _ISSUER), serial_of(serial), place, 1)
            sightings += _SIGHTING.pack(key_of(log, _LOG), _time_of(time))
        return self._answers(octets, (LentSighting * (len(sightings) // _SIGHTING.size)).from_buffer(sightings))

    def _answers(self, octets: bytearray, sightings: "ctypes.Array[LentSighting]") -> List[Union[Verdict, Refusal]]:
        """The answers to queries and their sightings in the layout of C."""
        count = len(octets) // _QUERY.size
        queries = (LentQuery * count).from_buffer(octets)
        with self._opened() as store:
            number = LIBRARY.clubcard_ask_each(*store.parameters, sightings, len(sightings), queries, count)
        if number != DONE:
            raise refused_by(number)
        return [answer_of(answer) for *_, answer in _QUERY.iter_unpack(octets)]

    def examine(self) -> Facts:
        """Tests the store's bytes: how many parts they hold, and the newest one's epoch."""
        with self._opened() as store:
            return store.facts

    def covered_until(self, log: BytesLike) -> Optional[int]:
        """The last moment of the newest part's range of the log, in milliseconds since 1970; None where it has none."""
        key, until = key_of(log, _LOG), ctypes.c_uint64()
        with self._opened() as store:
            number = LIBRARY.clubcard_covered_until(*store.parameters, key, ctypes.byref(until))
        if number == Verdict.NOT_COVERED.value:
            return None
        if number != DONE:
            raise refused_by(number)
        return until.value

    def install(self, part: BytesLike) -> bytes:
        """The bytes of the store that has this part more. Where they aren't a part, or one that doesn't go on with this
        store, it is `Refused`."""
        facts = LentInstallFacts(size=ctypes.sizeof(LentInstallFacts))
        with self._opened() as store, lent(bytes_like(part, "a part")) as lent_part:
            made = (ctypes.c_uint8 * (store.length + lent_part[1]))()
            number = LIBRARY.clubcard_install(
                store.address, store.length, *lent_part, ctypes.byref(made), len(made), ctypes.byref(facts)
            )
        if number != DONE:
            raise _refused_at(number, facts)
        return bytes(memoryview(made)[: facts.length])

    @contextlib.contextmanager
    def _opened(self) -> Iterator[_Opened]:
        """The store, opened where it isn't yet, or where its bytes may be others. Meanwhile nobody can move them."""
        with lent(self._data) as (address, length):
            kept = self._kept
            if kept is None or (kept.address, kept.length) != (address, length):
                kept = _open(address, length)
                if self._stays:
                    self._kept = kept
            yield kept


def place(by: By, issuer: BytesLike, serial: BytesLike, count: int) -> int:
    """The place of a certificate, where a history is cut into so many, from 0 on.

    It is asked for in the store of its place: any other may say GOOD of a revoked one. With a serial that hasn't 1 to
    32 octets, or places that aren't 1 to 65,536, it is `Refused`.
    """
    key, octets, found = key_of(issuer, _ISSUER), serial_of(serial), ctypes.c_uint64()
    wanted = operator.index(count)
    # Any other count is refused alike; a greater number might not fit the parameter.
    places = wanted if 0 <= wanted <= _MAX_PLACES else 0
    number = LIBRARY.clubcard_place(By(by).value, key, octets, len(octets), places, ctypes.byref(found))
    if number != DONE:
        raise refused_by(number)
    return found.value


def check_part(part: BytesLike) -> Part:
    """Tests a part's bytes, and says what it holds. Where they aren't a part, it is `Refused`."""
    facts = LentPartFacts(size=ctypes.sizeof(LentPartFacts))
    with lent(bytes_like(part, "a part")) as lent_part:
        number = LIBRARY.clubcard_check_part(*lent_part, ctypes.byref(facts))
    if number != DONE:
        raise _refused_at(number, facts)
    return Part(facts.kind == 1, facts.epoch, facts.ranges, facts.issuers, bytes(facts.trailer))


def _open(address: Optional[int], length: int) -> _Opened:
    """Opens the store of these bytes."""
    words, facts = ctypes.c_uint64(), LentStoreFacts(size=ctypes.sizeof(LentStoreFacts))
    # Bytes of which no index is known aren't a store, and clubcard_open says why.
    counted = LIBRARY.clubcard_index_length(address, length, ctypes.byref(words))
    try:
        index = (ctypes.c_uint32 * (words.value if counted == DONE else 0))()
    except (MemoryError, OverflowError, ValueError):
        raise refused_by(Refusal.NO_MEMORY.value) from None
    number = LIBRARY.clubcard_open(address, length, index, len(index), ctypes.byref(facts))
    if number != DONE:
        raise _refused_at(number, facts)
    return _Opened(address, length, index, Facts(facts.parts, facts.newest_epoch))


def _refused_at(number: int, facts: Union[LentStoreFacts, LentPartFacts, LentInstallFacts]) -> Refused:
    """What is raised where a call answers this number, with the place that its facts tell."""
    field = FIELDS[facts.field - 1] if 1 <= facts.field <= len(FIELDS) else ""
    return refused_by(number, facts.at, field)


def _verdict_of(number: int) -> Verdict:
    """The verdict of a number. Any other number is raised."""
    answer = answer_of(number)
    if isinstance(answer, Verdict):
        return answer
    raise refused_by(number)
