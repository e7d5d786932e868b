"""A query file (docs/FORMATS.md, "Query file")."""

from dataclasses import dataclass, field

from .fields import KEY, Fields

MAGIC = b"CLUBQRY1"
MOST_QUERIES = 65536
MOST_SIGHTINGS = 64
MAX_SERIAL = 32


@dataclass(frozen=True)
class Question:
    """A certificate that is asked about: its issuer (32 bytes) and its serial's octets; and when which log saw it, in
    milliseconds since 1970."""

    issuer: bytes
    serial: bytes
    sightings: tuple[tuple[bytes, int], ...]


@dataclass
class QueriesFound:
    """What was read of a query file, up to the first field that is wrong. count: how many it says that it has."""

    count: int | None = None
    questions: list[Question] = field(default_factory=list)


def read_queries(fields: Fields, found: QueriesFound) -> None:
    """Reads a query file. Where a field is wrong, it raises `LayoutFault`."""
    fields.magic("query.magic", MAGIC)
    found.count = fields.number("query.count", 4, 0, MOST_QUERIES)
    for _ in range(found.count):
        issuer = fields.take("query.issuer", KEY)
        serial = fields.take("query.serial", fields.number("query.length", 1, 1, MAX_SERIAL))
        count = fields.number("query.sightings", 1, 1, MOST_SIGHTINGS)
        sightings = [(fields.take("sighting.log", KEY), fields.number("sighting.time", 8)) for _ in range(count)]
        found.questions.append(Question(issuer, serial, tuple(sightings)))
        fields.tell()
    fields.whole()
