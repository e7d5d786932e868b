"""What a job comes to behind a ledger: why it isn't admitted, the part, the next ledger and the line, by
docs/FORMATS.md and the definitions in docs/ARCHITECTURE.md."""

from collections import Counter
from collections.abc import Iterator, Sequence
from dataclasses import dataclass
from typing import Any, Protocol

from reference import DATED, Job, Ledger, LedgerItem, LedgerPart, Part, Refused, build_blocks, history_of
from reference_files import follow, lies_in
from scenario_words import Identity

# How much a job, and the ledger behind it, may hold.
RANGES, CRLS, SERIALS, ENTRIES, IDENTITIES = 1024, 65535, 16777216, 4194304, 4194304


class Limit(Refused):
    """There is more of something than there may be."""

    def __init__(self, what: str, limit: int) -> None:
        super().__init__(6, f"limit {what} {limit}")


def test_crls(job: Job) -> None:
    """Refuses a job with a CRL that isn't accepted."""
    for place, (_, crl) in enumerate(job.crls):
        if crl.fault:
            raise Refused(4, f"crl {place} {crl.fault}")


def admit(job: Job, before: Sequence[Job | LedgerPart]) -> None:
    """Refuses a job that isn't admitted behind these jobs or parts."""
    test_crls(job)
    follow(job, before)


class Entry(Protocol):
    """An entry: its identity (None: it is unread), its sighting and its date (None: it has none)."""

    id: Any
    log: bytes
    time: int
    until: int | None


@dataclass
class Accepted:
    """The entries that a job accepts, and how many of the others there are of each kind."""

    entries: list[Entry]
    others: Counter[str]


def classes_of(job: Job, ledger: Ledger) -> Iterator[tuple[Entry, str]]:
    """The entries of a job, and what each of them is behind a ledger."""
    births = {item.identity: item.birth for item in ledger.items}

    def is_late(entry: Entry) -> bool:
        """Whether an earlier part covers an entry and has a block of its issuer, and was built without it."""
        return any(
            lies_in((entry.log, entry.time, entry.time), part.ranges)
            and entry.id[0] in part.issuers
            and births.get(entry.id, 255) > place
            for place, part in enumerate(ledger.parts)
        )

    for entry in job.entries:
        if entry.id is None:
            yield entry, "unread"
        elif not job.covers(entry.log, entry.time):
            yield entry, "uncovered"
        elif entry.id[0] not in job.enrolled():
            yield entry, "unenrolled"
        else:
            yield entry, "late" if is_late(entry) else "accepted"


def accepted_by(job: Job, ledger: Ledger) -> Accepted:
    """What a job accepts behind a ledger."""
    accepted = Accepted([], Counter())
    for entry, kind in classes_of(job, ledger):
        if kind == "accepted":
            accepted.entries.append(entry)
        else:
            accepted.others[kind] += 1
    return accepted


def next_item(entries: Sequence[Entry], old: LedgerItem | None, at: int) -> LedgerItem:
    """What the ledger holds of the identity of these entries, which the part at this place is built with."""
    dates = [entry.until for entry in entries] + ([old.until] if old else [])
    known = [date for date in dates if date is not None]
    until = max(known) if len(known) == len(dates) else None
    return LedgerItem(entries[0].id, old.birth if old else at, old.last if old else None, until)


@dataclass
class Published:
    """What is published of a job: the part, its ledger and the line."""

    part: Part
    ledger: Ledger
    line: str


def published_first(job: Job) -> Published:
    """What is published of a first job, by the definitions over a history."""
    history = history_of((job,))
    return Published(history.parts()[0], history.ledger(0), history.report(0))


def published(job: Job, ledger: Ledger) -> Published:
    """What is published of a job behind a ledger, which is taken at its word."""
    at, accepted = len(ledger.parts), accepted_by(job, ledger)
    items: dict[Identity, LedgerItem] = {item.identity: item for item in ledger.items}
    seen: dict[Identity, list[Entry]] = {}
    for entry in accepted.entries:
        seen.setdefault(entry.id, []).append(entry)
    items |= {x: next_item(entries, items.get(x), at) for x, entries in seen.items()}
    if len(items) > IDENTITIES:
        raise Limit("identities", IDENTITIES)
    enrolled = sorted(job.enrolled())
    universe = sorted(x for x in items if x[0] in job.enrolled())

    def is_revoked(x: Identity) -> bool:
        last = items[x].last
        if last is None:
            return bool(job.lists(x))
        # The last part covers all the sightings so far. It revokes the identity again where one of now lies elsewhere.
        ranges = ledger.parts[last].ranges
        return not all(lies_in((e.log, e.time, e.time), ranges) for e in seen.get(x, []))

    revoked = [x for x in universe if is_revoked(x)]
    blocks = build_blocks(enrolled, universe, revoked, DATED)
    part = Part(1, job.epoch, ledger.parts[-1].trailer, job.ranges, blocks)
    items |= {x: items[x]._replace(last=at) for x in revoked}
    parts = ledger.parts + [LedgerPart(job.epoch, part.trailer, job.ranges, enrolled)]
    counts = f"issuers {len(enrolled)} universe {len(universe)} revoked {len(revoked)}"
    others = " ".join(f"{kind} {accepted.others[kind]}" for kind in ("unread", "uncovered", "unenrolled", "late"))
    line = f"epoch {job.epoch} part {at} {counts} {others} accepted {len(accepted.entries)}"
    return Published(part, Ledger(parts, [items[x] for x in sorted(items)]), line)
