"""What is said of a certificate: verdicts and faults, their statuses, and their lines."""

import enum
from collections.abc import Iterable
from dataclasses import dataclass

from ..answers import Refusal, Verdict
from ..pki import Sighting
from ..times import nearest_iso


class Status(enum.IntEnum):
    """What a call ends with."""

    GOOD = 0
    REVOKED = 1
    WORDS = 2
    NOT_COVERED = 3
    NOT_ENROLLED = 4
    # A file holds no certificate, or its issuer isn't there.
    NO_CERTIFICATE = 5
    # The store's reader takes a certificate, or its timestamps, for malformed; or a serial can be read in two ways.
    UNREAD = 6
    # The store or the manifest can't be read, or isn't one, or the manifest is of another store; or the library that
    # asks the store isn't there.
    NO_STORE = 7
    # A host can't be reached, or shows no certificate.
    NO_HOST = 8
    # What nobody foresaw.
    UNFORESEEN = 70
    STOPPED = 130


# Of several the first that is there.
ORDER = (
    Status.REVOKED,
    Status.NO_STORE,
    Status.NO_CERTIFICATE,
    Status.NO_HOST,
    Status.UNREAD,
    Status.NOT_ENROLLED,
    Status.NOT_COVERED,
    Status.GOOD,
)


def word_of(answer: Verdict | Refusal) -> str:
    """How an answer is written."""
    return answer.name.lower().replace("_", "-")


@dataclass(frozen=True)
class Identity:
    """Of what a store is asked: the issuer's key hash (32 bytes), the serial's octets, and when logs saw it; the
    octets of another serial that the same word may be; and where times were given, when logs saw it at the latest."""

    issuer: bytes
    serial: bytes
    sightings: tuple[Sighting, ...]
    other: bytes | None = None
    latest: tuple[Sighting, ...] = ()


@dataclass(frozen=True)
class Answer:
    """What is said of one name: the status (None where it is passed over); the verdict, or the kind of fault in a word;
    what to tell of it; by what was asked; and what the store says, where the manifest says otherwise."""

    name: str
    status: Status | None
    verdict: Verdict | None = None
    fault: str = ""
    why: str = ""
    identity: Identity | None = None
    held: Verdict | None = None

    @property
    def is_open(self) -> bool:
        """Whether the store is still to be asked."""
        return self.identity is not None and self.verdict is None and not self.fault

    @property
    def word(self) -> str:
        """The verdict, or the kind of fault."""
        return self.fault if self.verdict is None else word_of(self.verdict)

    def members(self) -> dict[str, object]:
        """What is written of it in JSON."""
        asked = self.identity
        return {
            "name": self.name,
            "verdict": None if self.verdict is None else word_of(self.verdict),
            "fault": self.fault or None,
            "why": self.why or None,
            "status": self.status,
            "store": None if self.held is None else word_of(self.held),
            "issuer": None if asked is None else asked.issuer.hex(),
            "serial": None if asked is None else asked.serial.hex(),
            "timestamps": None if asked is None else [timestamp_members(each) for each in asked.sightings],
        }


def timestamp_members(sighting: Sighting) -> dict[str, object]:
    """What is written of a timestamp in JSON."""
    return {"log": sighting.log.hex(), "time": sighting.time, "date": nearest_iso(sighting.time)}


def status_of(statuses: Iterable[Status | None]) -> Status:
    """The status of several: the first of `ORDER` that is there."""
    found = set(statuses)
    return next((status for status in ORDER if status in found), Status.NO_CERTIFICATE)
