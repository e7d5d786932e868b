"""Times: milliseconds since 1970-01-01 00:00:00 UTC, and how they are written (ISO 8601)."""

import re
from datetime import datetime, timedelta, timezone

_BEGIN = datetime(1970, 1, 1, tzinfo=timezone.utc)
_MILLISECOND = timedelta(milliseconds=1)
SECOND = 1000
MINUTE = 60 * SECOND
HOUR = 60 * MINUTE
DAY = 24 * HOUR
_UNITS = {"s": SECOND, "m": MINUTE, "h": HOUR, "d": DAY}
_DURATION = re.compile(r"([0-9]{1,12})([smhd])", re.ASCII)
_FIRST, _LAST = ((datetime(*day, tzinfo=timezone.utc) - _BEGIN) // _MILLISECOND for day in ((1, 1, 1), (9999, 12, 31)))


def to_iso(moment: int) -> str:
    """A time as `2026-11-30T19:00:00.000Z`. Raises ValueError where it isn't in the years 1 to 9999."""
    try:
        time = _BEGIN + moment * _MILLISECOND
    except OverflowError:
        raise ValueError(f"{moment} isn't a time of the years 1 to 9999") from None
    return time.strftime("%Y").rjust(4, "0") + time.strftime("-%m-%dT%H:%M:%S.") + f"{time.microsecond // 1000:03d}Z"


def nearest_iso(moment: int) -> str:
    """A time as `to_iso` writes it, for people: of one outside of the years 1 to 9999 the nearest one in these."""
    return to_iso(min(max(moment, _FIRST), _LAST))


def from_iso(text: str) -> int:
    """The time that a text of ISO 8601 says; without an offset it is in UTC. Raises ValueError."""
    time = datetime.fromisoformat(text)
    if time.tzinfo is None:
        time = time.replace(tzinfo=timezone.utc)
    return (time - _BEGIN) // _MILLISECOND


def duration(text: str) -> int | None:
    """The milliseconds of a duration: a number and `s`, `m`, `h` or `d`, as in `90s`; None where it is none."""
    match = _DURATION.fullmatch(text)
    return int(match[1]) * _UNITS[match[2]] if match else None
