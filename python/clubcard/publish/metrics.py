"""metrics.prom: figures of the newest epoch for Prometheus' textfile collector (its text format, version 0.0.4)."""

from collections.abc import Iterable, Iterator
from dataclasses import dataclass

from .overview import Overview
from ..times import SECOND

Labels = tuple[tuple[str, str], ...]


@dataclass(frozen=True)
class Gauge:
    """A metric: what its help line says, and its samples."""

    name: str
    says: str
    samples: tuple[tuple[Labels, str], ...]


def _seconds(milliseconds: int) -> str:
    """Milliseconds in seconds, exactly."""
    sign = "-" if milliseconds < 0 else ""
    whole, part = divmod(abs(milliseconds), SECOND)
    return f"{sign}{whole}.{part:03d}" if part else f"{sign}{whole}"


def _one(name: str, says: str, value: str) -> Gauge:
    return Gauge(name, says, (((), value),))


def _many(name: str, says: str, samples: Iterable[tuple[Labels, str]]) -> Gauge:
    return Gauge(name, says, tuple(samples))


def _part_bytes(overview: Overview) -> Iterator[tuple[Labels, str]]:
    """The chain's bytes by kind, also where it has none of one."""
    for kind in ("delta", "snapshot"):
        yield (("kind", kind),), str(sum(part.length for part in overview.release.parts if part.kind == kind))


def gauges(overview: Overview) -> tuple[Gauge, ...]:
    """All metrics. Times are of the newest epoch, so that they say nothing of when they were written."""
    release, row = overview.release, overview.release.row
    aged = [held for held in overview.crls if held.this_update is not None]
    return (
        _one("clubcard_epoch", "Number of the newest epoch.", str(release.epoch)),
        _one("clubcard_moment_seconds", "Moment of the newest epoch, since 1970.", _seconds(release.moment)),
        _one("clubcard_valid_until_seconds", "Until when its manifest is valid.", _seconds(row.valid_until)),
        _one("clubcard_parts", "Parts of the chain.", str(row.parts)),
        _many("clubcard_part_bytes", "Bytes of the chain's parts, by kind.", _part_bytes(overview)),
        _one("clubcard_universe", "Certificates that the chain accepted.", str(row.universe)),
        _one("clubcard_revoked", "Those of them that are revoked.", str(row.revoked)),
        _many(
            "clubcard_waiting",
            "Entries that wait for an epoch that accepts them.",
            (((("log", held.log.hex()), ("issuer", held.issuer.hex())), str(held.count)) for held in overview.waiting),
        ),
        _many(
            "clubcard_issuer_enrolled",
            "Whether the newest epoch enrolled the issuer.",
            (((("issuer", held.issuer.hex()), ("name", held.name)), str(int(held.enrolled))) for held in row.issuers),
        ),
        _many(
            "clubcard_log_covered_to_seconds",
            "The last time of the log that is covered, since 1970.",
            (((("log", held.log.hex()), ("name", held.name)), _seconds(held.high)) for held in row.coverage),
        ),
        _many(
            "clubcard_log_entries",
            "Entries of the log that were taken.",
            (((("log", held.log.hex()), ("name", held.name)), str(held.entries)) for held in overview.logs),
        ),
        _many(
            "clubcard_crl_age_seconds",
            "How long before the newest epoch the CRL was issued; below 0 where it came behind it.",
            (
                ((("issuer", held.issuer.hex()), ("url", held.url)), _seconds(release.moment - (held.this_update or 0)))
                for held in aged
            ),
        ),
    )


def _escaped(value: str) -> str:
    return value.replace("\\", "\\\\").replace("\n", "\\n").replace('"', '\\"')


def _line(name: str, labels: Labels, value: str) -> str:
    if not labels:
        return f"{name} {value}\n"
    inner = ",".join(f'{label}="{_escaped(text)}"' for label, text in labels)
    return f"{name}{{{inner}}} {value}\n"


def _lines(gauge: Gauge) -> str:
    head = f"# HELP {gauge.name} {gauge.says}\n# TYPE {gauge.name} gauge\n"
    return head + "".join(_line(gauge.name, labels, value) for labels, value in gauge.samples)


def to_text(overview: Overview) -> bytes:
    """The file: each metric with its help and type, and its samples in the order of their labels' keys."""
    return "".join(_lines(gauge) for gauge in gauges(overview)).encode("utf-8")
