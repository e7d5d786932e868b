"""The word TIME of the programs."""

import time

import click

from .times import from_iso

_LAST = from_iso("9000-01-01")


class Time(click.ParamType):
    """A time in ISO 8601 (without an offset in UTC), or in milliseconds since 1970 UTC."""

    name = "TIME"

    def convert(self, value: object, param: click.Parameter | None, ctx: click.Context | None) -> int:
        """The milliseconds since 1970 UTC."""
        text = str(value)
        try:
            found = int(text) if text.isascii() and text.isdecimal() else from_iso(text)
        except ValueError:
            self.fail(f"{text!r} is no time: write 2026-11-30T19:00:00Z, or milliseconds since 1970", param, ctx)
        if not 0 <= found < _LAST:
            self.fail(f"{text!r} isn't within 1970 and 9000", param, ctx)
        return found


NOW = click.option("--now", type=Time(), help="The time that counts as now: ISO 8601, or milliseconds since 1970.")


def moment_of(now: int | None) -> int:
    """The run's moment, in milliseconds since 1970 UTC: `now`, else that of the clock."""
    return time.time_ns() // 1_000_000 if now is None else now
