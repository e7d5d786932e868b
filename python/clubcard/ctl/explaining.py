"""Which part of a store says what of a certificate: by the store cut behind each of its parts, which is a store too.

The verdicts are the library's, of each of these stores. What a part covers and whom it enrols is read by its layout.
"""

from collections.abc import Sequence
from dataclasses import dataclass

from ..answers import Refusal, Refused, Verdict
from ..layout.fields import Fields
from ..layout.part import PartFound
from ..layout.store import StoreFound, read_store
from ..pki import Sighting
from ..store import Store
from ..times import nearest_iso
from .asking import answers_of
from .known import printed
from .stores import Opened, OpenedPlaces
from .verdicts import Answer, Identity, timestamp_members, word_of

# Where a store's count stands (docs/FORMATS.md, "Store").
_COUNT_AT = 9


@dataclass(frozen=True)
class Part:
    """A part of a store: its place from 0, what is read of it, the whole store and all that is read of that, and the
    moment of its epoch where that is known."""

    place: int
    found: PartFound
    octets: bytes
    parts: Sequence[PartFound]
    moment: int | None

    @property
    def store(self) -> Store:
        """The store that ends with it, which is cut each time: all of them may be more than memory holds."""
        return Store(cut(self.octets, self.parts[: self.place + 1]))

    def range_of(self, sighting: Sighting) -> tuple[int, int] | None:
        """What it covers of a timestamp's log, both ends included, where it covers something of it."""
        return next(((each.low, each.high) for each in self.found.ranges if each.log == sighting.log), None)

    def covers(self, sighting: Sighting) -> bool:
        """Whether it covers a timestamp."""
        low, high = self.range_of(sighting) or (1, 0)
        return low <= sighting.time <= high

    def has(self, issuer: bytes) -> bool:
        """Whether its job enrolled an issuer; of the first part of a chain begun anew, whether some job before did."""
        return any(block.issuer == issuer for block in self.found.blocks)

    @property
    def until(self) -> int:
        """The latest time that it covers of a log."""
        return max((each.high for each in self.found.ranges), default=0)

    @property
    def name(self) -> str:
        """How it is named to people."""
        return f"part {self.place} ({self.found.kind} of epoch {self.found.epoch})"

    @property
    def long_name(self) -> str:
        """The name with its moment, or where that isn't known with how far it covers."""
        when = f"covers up to {nearest_iso(self.until)}" if self.moment is None else nearest_iso(self.moment)
        return f"{self.name[:-1]}, {when})"

    def members(self) -> dict[str, object]:
        """What is written of it in JSON."""
        return {
            "part": self.place,
            "kind": self.found.kind,
            "epoch": self.found.epoch,
            "moment": None if self.moment is None else nearest_iso(self.moment),
            "until": nearest_iso(self.until),
        }


def cut(octets: bytes, parts: Sequence[PartFound]) -> bytes:
    """The store of some parts at the beginning of another store."""
    end = parts[-1].offset + (parts[-1].length or 0)
    return b"".join([octets[:_COUNT_AT], bytes([len(parts)]), memoryview(octets)[_COUNT_AT + 1 : end]])


def read_parts(octets: bytes, moments: dict[int, int]) -> list[Part]:
    """The parts of a store that the library has tested. Moments (milliseconds) are given by their epochs."""
    found = StoreFound()
    read_store(Fields(octets), found)
    return [
        Part(place, part, octets, found.parts, moments.get(part.epoch or 0)) for place, part in enumerate(found.parts)
    ]


@dataclass(frozen=True)
class Said:
    """What a part says of a certificate: which of its timestamps it covers, whether it has the issuer, what the store
    that ends with it says, and whether one before said that it is revoked."""

    part: Part
    covered: tuple[bool, ...]
    enrolled: bool
    verdict: Verdict | Refusal
    was_revoked: bool

    @property
    def word(self) -> str:
        """What it says itself: nothing where it covers no timestamp or hasn't the issuer; else that the certificate is
        revoked, or was by a part before, or good."""
        if not any(self.covered):
            return "not-covered"
        if not self.enrolled:
            return "not-enrolled"
        return "revoked-before" if self.was_revoked else word_of(self.verdict)

    def line(self) -> str:
        """How it is told to people."""
        covers = f"covers {sum(self.covered)} of {len(self.covered)} timestamps"
        enrols = "has the issuer" if self.enrolled else "hasn't the issuer"
        told = {"not-covered": "says nothing", "not-enrolled": "says nothing", "revoked-before": "revoked before"}
        return f"  {self.part.long_name}: {covers}, {enrols}: {told.get(self.word, self.word)}"

    def members(self) -> dict[str, object]:
        """What is written of it in JSON."""
        return {
            **self.part.members(),
            "covered": list(self.covered),
            "enrolled": self.enrolled,
            "says": self.word,
            "store": word_of(self.verdict),
        }


@dataclass(frozen=True)
class Explained:
    """An answer, and what each part says of it; nothing where the certificate couldn't be asked about."""

    answer: Answer
    said: tuple[Said, ...]

    @property
    def since(self) -> Part | None:
        """The first part that says that it is revoked."""
        return next((each.part for each in self.said if each.verdict is Verdict.REVOKED), None)

    def coverage(self, sighting: Sighting) -> tuple[Part, tuple[int, int]] | None:
        """The first part that covers a timestamp, and the range."""
        for each in self.said:
            span = each.part.range_of(sighting)
            if span is not None and each.part.covers(sighting):
                return each.part, span
        return None

    def lines(self) -> list[str]:
        """What is told to people."""
        answer, identity = self.answer, self.answer.identity
        if identity is None or not self.said:
            return []
        lines = [f"{answer.word} {printed(answer.name)}"]
        lines.append(f"  issuer {identity.issuer.hex()}, serial {identity.serial.hex()}")
        since = self.since
        if since is not None:
            before = ", or before: the chain begins there" if since.place == 0 else ""
            lines.append(f"  revoked since {since.long_name}{before}")
        lines += [f"  {self._timestamp(each)}" for each in identity.sightings]
        return [*lines, *(each.line() for each in self.said)]

    def _timestamp(self, sighting: Sighting) -> str:
        """What is told of a timestamp."""
        text = f"timestamp {nearest_iso(sighting.time)} of log {sighting.log.hex()}: "
        covered = self.coverage(sighting)
        if covered is not None:
            part, (low, high) = covered
            return f"{text}covered since {part.name}, by its range from {nearest_iso(low)} to {nearest_iso(high)}"
        newest = self.said[-1].part.range_of(sighting)
        if newest is None:
            return f"{text}not covered, since no part has this log"
        return f"{text}not covered: the newest range is from {nearest_iso(newest[0])} to {nearest_iso(newest[1])}"

    def members(self) -> dict[str, object]:
        """What is written in JSON: the answer's members, and more of its timestamps and of the parts."""
        identity, since = self.answer.identity, self.since
        sightings = identity.sightings if identity is not None and self.said else ()
        return {
            **self.answer.members(),
            "timestamps": [self._timestamp_members(each) for each in sightings],
            "revoked_since": None if since is None else since.members(),
            "parts": [each.members() for each in self.said],
        }

    def _timestamp_members(self, sighting: Sighting) -> dict[str, object]:
        """What is written of a timestamp: also the first part that covers it, and the range."""
        covered = self.coverage(sighting)
        if covered is None:
            return {**timestamp_members(sighting), "since": None, "range": None}
        part, (low, high) = covered
        return {**timestamp_members(sighting), "since": part.members(), "range": {"from": low, "to": high}}


def _explained(answer: Answer, parts: Sequence[Part], verdicts: Sequence[Verdict | Refusal]) -> Explained:
    """An answer with what each part says."""
    said, was_revoked = [], False
    identity = answer.identity or Identity(b"", b"", ())
    for part, verdict in zip(parts, verdicts, strict=True):
        covered = tuple(part.covers(each) for each in identity.sightings)
        said.append(Said(part, covered, part.has(identity.issuer), verdict, was_revoked))
        was_revoked = was_revoked or verdict is Verdict.REVOKED
    return Explained(answer, tuple(said))


def explain(parts: Sequence[Part], answers: Sequence[Answer]) -> list[Explained]:
    """Explains the answers that the store of these parts gave."""
    asked = [answer for answer in answers if answer.identity is not None and answer.identity.sightings]
    wanted = [answer.identity for answer in asked if answer.identity is not None]
    columns = [answers_of(part.store, wanted) for part in parts] if wanted else []
    rows = dict(zip(map(id, asked), zip(*columns)))
    return [
        _explained(answer, parts, rows[id(answer)]) if id(answer) in rows else Explained(answer, ())
        for answer in answers
    ]


def explain_by(found: Opened | OpenedPlaces, answers: Sequence[Answer], moments: dict[int, int]) -> list[Explained]:
    """Explains answers, each by the store that gave it. Moments (milliseconds) are given by their epochs."""
    by_place: dict[str | None, list[Answer]] = {}
    for answer in answers:
        by_place.setdefault(_place_of(found, answer), []).append(answer)
    explained: dict[int, Explained] = {}
    for place, some in by_place.items():
        parts = [] if place is None else read_parts(found.octets_at(place), moments)
        explained |= {id(each.answer): each for each in explain(parts, some)}
    return [explained[id(answer)] for answer in answers]


def _place_of(found: Opened | OpenedPlaces, answer: Answer) -> str | None:
    """Whose store gave an answer; None where none did."""
    if answer.identity is None:
        return None
    try:
        return found.place_of(answer.identity.issuer, answer.identity.serial)
    except Refused:
        return None
