"""index.html: what a person wants to see of the publisher. It has no script, and all that it shows is of the site."""

from collections.abc import Sequence
from dataclasses import dataclass
from functools import cache

from jinja2 import Environment, PackageLoader, StrictUndefined

from ..times import DAY, HOUR, MINUTE, SECOND, nearest_iso
from . import chain, charts
from .alarms import Alarm
from .overview import Overview

EPOCHS = 30
"""How many of the last epochs the page tells."""
ROWS = 50
"""How many rows the table of what waits has at most."""
ALARMS = 100
"""How many rows the table of alarms has at most."""


@dataclass(frozen=True)
class WaitingRow:
    """What waits of one log and issuer, and why."""

    log: str
    issuer: str
    count: int
    since: int
    why: str


@dataclass(frozen=True)
class AlarmRow:
    """An alarm in the last epochs: the first and the last one with it, and in how many it was."""

    alarm: Alarm
    first: int
    last: int
    count: int


@dataclass(frozen=True)
class LogLine:
    """A log: what is covered of it, and how far that lies behind the epoch's moment."""

    name: str
    key: str
    low: int | None
    high: int | None
    behind: int | None
    entries: int
    head_time: int | None
    head_size: int | None


def _time(moment: int | None) -> str:
    """A time to the second, in UTC."""
    return "–" if moment is None else nearest_iso(moment)[:19].replace("T", " ")


def _number(value: int | None) -> str:
    return "–" if value is None else f"{value:,}"


def _share(part: int, whole: int) -> str:
    return "–" if whole == 0 else f"{100 * part / whole:.2f} %"


def _duration(length: int | None) -> str:
    """A duration by its two greatest units."""
    if length is None:
        return "–"
    units = [("d", length // DAY), ("h", length % DAY // HOUR), ("min", length % HOUR // MINUTE)]
    shown = [f"{count} {name}" for name, count in [*units, ("s", length % MINUTE // SECOND)] if count]
    return " ".join(shown[:2]) if shown else "0 s"


def _why(held: chain.Waiting, row: chain.EpochRow) -> str:
    """Why entries wait, as far as the state tells."""
    named = {issuer.issuer: issuer for issuer in row.issuers}
    covered = {coverage.log: coverage for coverage in row.coverage}.get(held.log)
    issuer = named.get(held.issuer)
    if issuer is None:
        return "CONFIG doesn't name the issuer"
    if not issuer.enrolled:
        return f"the issuer isn't enrolled: {issuer.reason}"
    if covered is None or held.since > covered.high:
        return "newer than what is covered"
    if held.since < covered.low:
        return "some are older than what is covered"
    return "some are late, the others are newer than what is covered"


def waiting_rows(seen: Overview) -> list[WaitingRow]:
    """What waits, the most first."""
    logs = {log.log: log.name for log in seen.logs}
    issuers = {issuer.issuer: issuer.name for issuer in seen.release.row.issuers}
    rows = [
        WaitingRow(
            logs.get(held.log, held.log.hex()[:16]),
            issuers.get(held.issuer, held.issuer.hex()[:16]),
            held.count,
            held.since,
            _why(held, seen.release.row),
        )
        for held in seen.waiting
    ]
    return sorted(rows, key=lambda row: (-row.count, row.log, row.issuer))


def alarm_rows(history: Sequence[chain.EpochRow]) -> list[AlarmRow]:
    """The alarms of these epochs, those of the last ones first; the same alarm of several epochs is one row."""
    epochs: dict[Alarm, list[int]] = {}
    for alarm, epoch in ((alarm, row.epoch) for row in history for alarm in row.alarms):
        epochs.setdefault(alarm, []).append(epoch)
    rows = [AlarmRow(alarm, min(seen), max(seen), len(seen)) for alarm, seen in epochs.items()]
    return sorted(rows, key=lambda row: (-row.last, row.alarm.kind, row.alarm.text))


def log_lines(seen: Overview) -> list[LogLine]:
    """The logs that are covered or known."""
    covered = {held.log: held for held in seen.release.row.coverage}
    known = {held.log: held for held in seen.logs}
    lines = []
    for log in sorted(covered.keys() | known.keys()):
        held, row = covered.get(log), known.get(log)
        lines.append(
            LogLine(
                name=held.name if held else known[log].name,
                key=log.hex(),
                low=held.low if held else None,
                high=held.high if held else None,
                behind=seen.release.moment - held.high if held else None,
                entries=row.entries if row else 0,
                head_time=row.head_time if row else None,
                head_size=row.head_size if row else None,
            )
        )
    return lines


@cache
def _environment() -> Environment:
    """jinja2 with each value escaped, and a fault where a template asks for what isn't there."""
    environment = Environment(
        loader=PackageLoader("clubcard.publish", "templates"),
        autoescape=True,
        undefined=StrictUndefined,
        trim_blocks=True,
        lstrip_blocks=True,
    )
    environment.filters.update(time=_time, number=_number, duration=_duration)
    return environment


def to_html(seen: Overview) -> bytes:
    """The page."""
    row = seen.release.row
    last = seen.history[-EPOCHS:]
    waiting, alarms = waiting_rows(seen), alarm_rows(last)
    issuers: list[chain.IssuerRow] = sorted(row.issuers, key=lambda issuer: (issuer.name, issuer.issuer))
    page = (
        _environment()
        .get_template("index.html")
        .render(
            release=seen.release,
            row=row,
            bytes=sum(part.length for part in seen.release.parts),
            issuers=issuers,
            left=[issuer for issuer in issuers if not issuer.enrolled],
            names={issuer.issuer: issuer.name for issuer in issuers},
            log_names={log.log: log.name for log in seen.logs},
            logs=log_lines(seen),
            crls=seen.crls,
            asides=seen.asides,
            waiting=waiting[:ROWS],
            waiting_more=waiting[ROWS:],
            waiting_count=sum(held.count for held in waiting),
            alarms=alarms[:ALARMS],
            alarms_more=len(alarms[ALARMS:]),
            epochs=last[::-1],
            charts=charts.CHARTS,
            share=_share,
        )
    )
    return page.encode("utf-8")
