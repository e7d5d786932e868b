"""The lines that tell of a file for people, made of the same values as its JSON."""

from collections.abc import Iterator, Sequence
from typing import Any

from .facts import Facts
from .known import printed

# So many issuers, and so many questions, are told one by one.
MOST_ISSUERS = 40
MOST_QUESTIONS = 10


def lines_of(report: Facts) -> Iterator[str]:
    """What was read of a file, and whether it is whole."""
    kind, facts = report["kind"], report["facts"]
    if kind is None:
        yield f"unknown file, {report['bytes']} bytes"
    else:
        yield from _TELLERS[kind](facts, report["bytes"])
    if report["fault"] is not None:
        yield from _fault_lines(report["fault"])
    yield from _program_lines(report)


def _count(number: int | None, one: str, several: str = "") -> str:
    """So many of something."""
    return f"{'an unknown number of' if number is None else number} {one if number == 1 else several or one + 's'}"


def _known(value: Any) -> Any:
    return "unknown" if value is None else value


def _keyed(word: str, facts: Facts) -> str:
    """A key with its name, where it has one."""
    return f"{printed(facts['name'])} ({facts[word]})" if facts["name"] else str(facts[word])


def _bounds(bounds: Facts) -> str:
    """How many there are, as far as that is known."""
    least, most = bounds["least"], bounds["most"]
    if most is None:
        return f"{least} or more"
    return f"{least}" if least == most else f"{least} to {most}"


def _time(iso: str | None, moment: int | None) -> str:
    """A time in ISO 8601; one of no year from 1 to 9999 as a number."""
    return iso or f"{moment} ms"


def _ranges(facts: Facts) -> Iterator[str]:
    for each in facts["ranges"]:
        times = f"{_time(each['from_iso'], each['from'])} to {_time(each['to_iso'], each['to'])}"
        yield f"range: {times}, log {_keyed('log', each)}"


def _first(lines: Sequence[str], most: int, what: str) -> Iterator[str]:
    """The first lines, and how many more there are."""
    yield from lines[:most]
    if len(lines) > most:
        yield f"and {len(lines) - most} more {what}, all of which --json tells"


def _issuers(facts: Facts, told: Sequence[str]) -> Iterator[str]:
    """The issuers, each with what is told of it."""
    lines = [f"issuer: {_keyed('issuer', each)}: {text}" for each, text in zip(facts["issuers"], told)]
    yield from _first(lines, MOST_ISSUERS, "issuers")


def _block(block: Facts) -> str:
    """What is told of an issuer in a part."""
    mode, sizes = block["mode"], f"{block['bytes']} bytes"
    if mode in ("none", "all"):
        return f"{mode} revoked, {sizes}"
    shards = f" in {1 << block['shift']} shards" if mode == "sharded" else ""
    return f"{_bounds(block['revoked'])} revoked of {_bounds(block['identities'])}{shards}, {sizes}"


def _part(facts: Facts, size: int) -> Iterator[str]:
    head = f"part: {_known(facts['kind'])} of epoch {_known(facts['epoch'])}, version {_known(facts['version'])}"
    yield f"{head}, {_count(facts['issuer_count'], 'issuer')}, {size} bytes"
    if facts["kind"] == "delta":
        yield f"parent: {_known(facts['parent'])}"
    yield from _ranges(facts)
    yield from _issuers(facts, [_block(block) for block in facts["issuers"]])
    yield f"trailer: {_known(facts['trailer'])}"


def _store(facts: Facts, size: int) -> Iterator[str]:
    yield f"store: {_count(facts['part_count'], 'part')}, newest epoch {_known(facts['epoch'])}, {size} bytes"
    for place, part in enumerate(facts["parts"]):
        what = f"{_known(part['kind'])} of epoch {_known(part['epoch'])}, {_count(part['issuer_count'], 'issuer')}"
        sizes = f"{_known(part['bytes'])} bytes from {part['offset']} on"
        yield f"part {place}: {what}, {sizes}, trailer {_known(part['trailer'])}"
    yield from _ranges(facts)
    told = [
        f"in {_count(each['parts'], 'part')}, {_bounds(each['revoked'])} revoked, {each['bytes']} bytes"
        for each in facts["issuers"]
    ]
    yield from _issuers(facts, told)


def _ledger(facts: Facts, size: int) -> Iterator[str]:
    head = f"ledger: {_count(facts['part_count'], 'part')}, newest epoch {_known(facts['epoch'])}"
    yield f"{head}, version {_known(facts['version'])}, {size} bytes"
    for place, part in enumerate(facts["parts"]):
        counts = f"{part['born']} accepted first, {part['last']} revoked last, trailer {part['trailer']}"
        yield f"part {place}: epoch {part['epoch']}, {_count(part['issuers'], 'issuer')}, {counts}"
    yield from _ranges(facts)
    read = facts["identities"]
    all_of = "" if facts["identity_count"] == read else f" of {_known(facts['identity_count'])}"
    yield f"identities: {read}{all_of}, revoked {facts['revoked']}, with a date {facts['dated']}"
    told = [
        f"{_count(each['identities'], 'identity', 'identities')}, {each['revoked']} revoked"
        for each in facts["issuers"]
    ]
    yield from _issuers(facts, told)
    yield f"digest: {_known(facts['digest'])}"


def _job(facts: Facts, size: int) -> Iterator[str]:
    moment = "unknown" if facts["moment"] is None else _time(facts["moment_iso"], facts["moment"])
    yield f"job: epoch {_known(facts['epoch'])}, moment {moment}, {size} bytes"
    yield from _ranges(facts)
    yield f"CRLs: {facts['crls']}"
    told = [
        f"{_count(each['crls'], 'CRL')}, {_count(each['serials'], 'serial')}, {each['bytes']} bytes"
        for each in facts["issuers"]
    ]
    yield from _issuers(facts, told)
    yield f"entries: {facts['entries']}"
    for each in facts["logs"]:
        times = ""
        if each["first"] is not None:
            times = f", {_time(each['first_iso'], each['first'])} to {_time(each['last_iso'], each['last'])}"
        yield f"log: {_keyed('log', each)}: {_count(each['entries'], 'entry', 'entries')}{times}"


def _queries(facts: Facts, size: int) -> Iterator[str]:
    yield f"queries: {_known(facts['query_count'])}, {size} bytes"
    yield from _issuers(facts, [_count(each["questions"], "question") for each in facts["issuers"]])
    lines = []
    for each in facts["questions"]:
        seen = ", ".join(
            f"{_time(sighting['iso'], sighting['time'])} {sighting['log']}" for sighting in each["sightings"]
        )
        lines.append(f"question: {each['issuer']} {each['serial']}, seen {seen}")
    yield from _first(lines, MOST_QUESTIONS, "questions")


def _device(facts: Facts, size: int) -> Iterator[str]:
    yield f"device: two slots of {_known(facts['capacity'])} bytes, gate {_known(facts['gate'])}, {size} bytes"
    picked = [slot for slot in facts["slots"] if slot["picked"]]
    for slot in facts["slots"]:
        what = "the newest, picked" if slot["picked"] else "the other one, which the program doesn't read"
        yield f"slot {slot['slot']}: {what}; {_held(slot, picked[0])}"
    for slot in picked:
        if slot["bytes"] is not None:
            yield from _store(slot["store"], slot["bytes"])


def _held(slot: Facts, picked: Facts) -> str:
    """What a slot holds."""
    store, fault = slot["store"], slot["fault"]
    if fault is not None and not fault["bytes"]:
        return "nothing is there"
    held = f"{_known(slot['bytes'])} bytes from {slot['offset']} on"
    if fault is not None:
        return f"{held}, no whole store: {fault['field']} at {fault['offset']} is wrong"
    is_ahead = slot is not picked and store["epoch"] > (picked["store"]["epoch"] or 0)
    ahead = ", of an install that wasn't ended" if is_ahead else ""
    return f"{held}, {_count(store['part_count'], 'part')}, newest epoch {store['epoch']}{ahead}"


_TELLERS = {"part": _part, "store": _store, "ledger": _ledger, "job": _job, "queries": _queries, "device": _device}


def _fault_lines(fault: Facts) -> Iterator[str]:
    """What is wrong."""
    more = (
        "" if fault["why"] == "short" or 2 * fault["width"] <= len(fault["bytes"]) else f".. ({fault['width']} bytes)"
    )
    given = f"{fault['bytes']}{more}" if fault["bytes"] else "no bytes"
    within = "" if fault["offset_in_store"] is None else f" ({fault['offset_in_store']} in its store)"
    where = f"{fault['field']} at {fault['offset']}{within}, {fault['why']}"
    yield f"wrong: {where}: {given}; expected {fault['expected']}"


def _program_lines(report: Facts) -> Iterator[str]:
    """What the program says, and what all of it comes to."""
    program = report["program"]
    if program is None:
        yield "program: not asked, since the file's kind isn't known; where its magic alone is damaged, give --kind"
        return
    who = f"program: clubcard {program['command']}"
    if program["accepts"]:
        yield f"{who} reads it"
    else:
        yield f"{who}: {program['line'] or 'no line'} (status {program['status']}): {program['remedy']}"
    if report["differs"]:
        yield "the program and this reading differ: read it again, as it may have changed meanwhile; else report it"
    elif report["whole"]:
        yield "whole: all fields pass their tests, and the program reads it"
    elif report["fault"] is None and program["accepts"] is None:
        yield "all fields pass their tests, and the program gave no answer"
