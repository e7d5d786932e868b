"""What a file holds, as values of JSON: keys and digests in hexadecimal, times in milliseconds since 1970 and in
ISO 8601 (None outside of the years 1 to 9999), names None where none is at hand."""

from collections.abc import Mapping, Sequence
from typing import Any

from ..engine_lines import Range
from ..layout.device import DeviceFound, SlotFound
from ..layout.fields import Fault
from ..layout.job import JobFound
from ..layout.kinds import Found
from ..layout.ledger import LedgerFound
from ..layout.part import BlockFound, PartFound
from ..layout.queries import QueriesFound
from ..layout.sizes import Bounds, together
from ..layout.store import StoreFound
from ..times import to_iso
from .known import Names

Facts = dict[str, Any]


def facts_of(found: Found, names: Names) -> Facts:
    """What was read of a file."""
    if isinstance(found, PartFound):
        return _part(found, names)
    if isinstance(found, StoreFound):
        return _store(found, names)
    if isinstance(found, LedgerFound):
        return _ledger(found, names)
    if isinstance(found, JobFound):
        return _job(found, names)
    if isinstance(found, QueriesFound):
        return _queries(found, names)
    return _device(found, names)


def fault_facts(fault: Fault | None) -> Facts | None:
    """A field that is wrong. Its offset counts from the beginning of the file, and that in the store of a device's slot
    also from there, as the program counts it."""
    if fault is None:
        return None
    facts: Facts = {"field": fault.field, "offset": fault.at, "why": fault.why, "width": fault.width}
    facts["offset_in_store"] = fault.at - fault.start if fault.start else None
    return facts | {"bytes": fault.octets.hex(), "expected": fault.expected}


def _hex(octets: bytes | None) -> str | None:
    return None if octets is None else octets.hex()


def _iso(moment: int | None) -> str | None:
    """A time in ISO 8601, where there is one."""
    try:
        return None if moment is None else to_iso(moment)
    except ValueError:
        return None


def _ranges(ranges: Sequence[Range], names: Names) -> list[Facts]:
    return [
        {
            "log": each.log.hex(),
            "name": names.get(each.log),
            "from": each.low,
            "to": each.high,
            "from_iso": _iso(each.low),
            "to_iso": _iso(each.high),
        }
        for each in ranges
    ]


def _issuer(issuer: bytes, names: Names, facts: Mapping[str, Any]) -> Facts:
    return {"issuer": issuer.hex(), "name": names.get(issuer), **facts}


def _bounds(bounds: Bounds) -> Facts:
    return {"least": bounds.least, "most": bounds.most}


def _block(block: BlockFound, names: Names) -> Facts:
    facts = {
        "mode": block.mode,
        "shift": block.shift,
        "leaves": block.modes,
        "offset": block.offset,
        "bytes": block.length,
        "revoked": _bounds(block.revoked),
        "identities": _bounds(block.identities),
    }
    return _issuer(block.issuer, names, facts)


def _part(part: PartFound, names: Names) -> Facts:
    return {
        "offset": part.offset,
        "bytes": part.length,
        "version": part.version,
        "kind": part.kind,
        "epoch": part.epoch,
        "parent": _hex(part.parent),
        "ranges": _ranges(part.ranges, names),
        "issuer_count": part.issuers,
        "issuers": [_block(block, names) for block in part.blocks],
        "trailer": _hex(part.trailer),
    }


def _store(store: StoreFound, names: Names) -> Facts:
    """The ranges are those of the newest part; an identity counts in each part that was built with it as revoked."""
    blocks: dict[bytes, list[BlockFound]] = {}
    for part in store.parts:
        for block in part.blocks:
            blocks.setdefault(block.issuer, []).append(block)
    issuers = [
        _issuer(
            issuer,
            names,
            {
                "parts": len(found),
                "bytes": sum(block.length for block in found),
                "revoked": _bounds(together([block.revoked for block in found])),
            },
        )
        for issuer, found in sorted(blocks.items())
    ]
    newest = store.parts[-1] if store.parts else PartFound()
    return {
        "part_count": store.count,
        "epoch": newest.epoch,
        "ranges": _ranges(newest.ranges, names),
        "issuers": issuers,
        "parts": [_part(part, names) for part in store.parts],
    }


def _ledger(ledger: LedgerFound, names: Names) -> Facts:
    parts = [
        {
            "epoch": part.epoch,
            "trailer": part.trailer.hex(),
            "ranges": _ranges(part.ranges, names),
            "issuers": part.issuers,
            "born": part.born,
            "last": part.last,
        }
        for part in ledger.parts
    ]
    total = ledger.total()
    return {
        "version": ledger.version,
        "part_count": ledger.count,
        "epoch": ledger.parts[-1].epoch if ledger.parts else None,
        "ranges": _ranges(ledger.parts[-1].ranges if ledger.parts else [], names),
        "identity_count": ledger.identities,
        "identities": total.identities,
        "revoked": total.revoked,
        "dated": total.dated,
        "issuers": [_issuer(issuer, names, vars(counts)) for issuer, counts in sorted(ledger.issuers.items())],
        "parts": parts,
        "digest": _hex(ledger.digest),
    }


def _job(job: JobFound, names: Names) -> Facts:
    issuers = [
        _issuer(issuer, names, {"crls": crls.count, "bytes": crls.size, "serials": crls.serials})
        for issuer, crls in sorted(job.crls.items())
    ]
    logs = [
        {
            "log": log.hex(),
            "name": names.get(log),
            "entries": found.count,
            "first": found.first,
            "last": found.last,
            "first_iso": _iso(found.first),
            "last_iso": _iso(found.last),
        }
        for log, found in sorted(job.entries.items())
    ]
    return {
        "epoch": job.epoch,
        "moment": job.moment,
        "moment_iso": _iso(job.moment),
        "ranges": _ranges(job.ranges, names),
        "crls": job.crl_count(),
        "issuers": issuers,
        "entries": job.entry_count(),
        "logs": logs,
    }


def _queries(queries: QueriesFound, names: Names) -> Facts:
    counts: dict[bytes, int] = {}
    for question in queries.questions:
        counts[question.issuer] = counts.get(question.issuer, 0) + 1
    questions = [
        {
            "issuer": question.issuer.hex(),
            "serial": question.serial.hex(),
            "sightings": [{"log": log.hex(), "time": time, "iso": _iso(time)} for log, time in question.sightings],
        }
        for question in queries.questions
    ]
    issuers = [_issuer(issuer, names, {"questions": count}) for issuer, count in sorted(counts.items())]
    return {"query_count": queries.count, "issuers": issuers, "questions": questions}


def _slot(slot: SlotFound, names: Names) -> Facts:
    return {
        "slot": slot.number,
        "picked": slot.is_picked,
        "offset": slot.offset,
        "bytes": slot.length,
        "fault": fault_facts(slot.fault),
        "store": _store(slot.store, names),
    }


def _device(device: DeviceFound, names: Names) -> Facts:
    return {
        "gate": device.gate,
        "picked": None if device.gate is None else device.gate & 1,
        "capacity": device.capacity,
        "slots": [_slot(slot, names) for slot in device.slots],
    }
