"""The page's charts as SVG, by matplotlib, which is imported only where one is drawn.

The same figures give the same bytes: the names inside of an SVG come from a fixed salt, and it has no date. Behind each
stands a comment with the digests of its figures and of its bytes, so that a chart that is there already isn't drawn
again.
"""

import hashlib
import io
from collections.abc import Callable, Sequence
from dataclasses import dataclass
from datetime import datetime, timezone
from pathlib import Path
from typing import Any

from ..times import HOUR, SECOND
from .overview import Overview

ISSUERS = 15
"""How many issuers have a bar of their own."""
_LOGS = 10
_VERSION = 1
# Beside matplotlib's own defaults, which leave the time zone as the user has set it.
_SETTINGS = {
    "timezone": "UTC",
    "svg.hashsalt": "clubcard",
    "svg.fonttype": "none",
    "font.size": 10,
    "axes.spines.top": False,
    "axes.spines.right": False,
    "axes.grid": True,
    "axes.axisbelow": True,
    "grid.color": "#dddddd",
    "figure.subplot.left": 0.12,
    "figure.subplot.right": 0.97,
    "figure.subplot.top": 0.97,
    "figure.subplot.bottom": 0.17,
    "figure.subplot.wspace": 0.1,
    "figure.subplot.hspace": 0.1,
}
_BLUE, _RED = "#1f5fa8", "#b3261e"


@dataclass(frozen=True)
class Chart:
    """A chart: which figures it shows, how they are drawn, its title, and its text for those who don't see it."""

    title: str
    says: str
    figures: Callable[[Overview], Any]
    draw: Callable[[Any, Any], None]
    height: float


def _moments(epochs: Sequence[Any]) -> list[datetime]:
    """The first figure of each epoch, its moment, as matplotlib takes times."""
    return [datetime.fromtimestamp(epoch[0] / SECOND, tz=timezone.utc) for epoch in epochs]


def _dated(axes: Any) -> None:
    """Marks the axis below by times in UTC."""
    from matplotlib.dates import AutoDateLocator, ConciseDateFormatter  # type: ignore[import]

    locator = AutoDateLocator(minticks=3, maxticks=8)
    axes.xaxis.set_major_locator(locator)
    axes.xaxis.set_major_formatter(ConciseDateFormatter(locator))
    axes.set_xlabel("moment of the epoch (UTC)")


def _whole(axis: Any, marks: int) -> None:
    """Marks an axis by whole numbers with thousands apart."""
    from matplotlib.ticker import MaxNLocator, StrMethodFormatter  # type: ignore[import]

    axis.set_major_locator(MaxNLocator(nbins=marks, integer=True))
    axis.set_major_formatter(StrMethodFormatter("{x:,.0f}"))


def _powers(axes: Any, values: list[int]) -> None:
    """Makes the axis on the left logarithmic, with marks at 1, 2 and 5 times the powers of ten around the values."""
    from matplotlib.ticker import LogLocator, NullLocator, StrMethodFormatter

    axes.set_yscale("log")
    axes.set_ylim(max(1, min(values) // 2), 2 * max(values))
    axes.yaxis.set_major_locator(LogLocator(subs=(1, 2, 5)))
    axes.yaxis.set_minor_locator(NullLocator())
    axes.yaxis.set_major_formatter(StrMethodFormatter("{x:,.0f}"))


def _history_figures(seen: Overview) -> list[tuple[int, int, int]]:
    return [(row.moment, row.universe, row.revoked) for row in seen.history]


def _draw_history(figure: Any, epochs: list[tuple[int, int, int]]) -> None:
    upper, lower = figure.subplots(2, 1, sharex=True)
    times = _moments(epochs)
    for axes, place, color, label in ((upper, 1, _BLUE, "certificates"), (lower, 2, _RED, "revoked")):
        axes.plot(times, [epoch[place] for epoch in epochs], color=color, marker="o", markersize=3)
        axes.set_ylabel(label)
        axes.set_ylim(bottom=0)
        _whole(axes.yaxis, 6)
    _dated(lower)


def _size_figures(seen: Overview) -> list[tuple[int, str, int]]:
    return [(row.moment, row.kind, row.length) for row in seen.history]


def _draw_sizes(figure: Any, epochs: list[tuple[int, str, int]]) -> None:
    axes = figure.subplots()
    for kind, color, marker in (("snapshot", _RED, "s"), ("delta", _BLUE, "o")):
        shown = [epoch for epoch in epochs if epoch[1] == kind]
        axes.plot(_moments(shown), [epoch[2] for epoch in shown], marker, color=color, label=kind, markersize=5)
    _powers(axes, [epoch[2] for epoch in epochs])
    axes.set_ylabel("bytes of the part")
    axes.legend()
    _dated(axes)


def _issuer_figures(seen: Overview) -> list[tuple[str, int, int]]:
    rows = sorted(seen.release.row.issuers, key=lambda issuer: (-issuer.universe, issuer.name, issuer.issuer))
    shown = [(row.name, row.universe, row.revoked) for row in rows[:ISSUERS]]
    rest = rows[ISSUERS:]
    if rest:
        shown.append((f"{len(rest)} others", sum(row.universe for row in rest), sum(row.revoked for row in rest)))
    return shown


def _draw_issuers(figure: Any, issuers: list[tuple[str, int, int]]) -> None:
    figure.subplots_adjust(left=0.3)
    left, right = figure.subplots(1, 2, sharey=True)
    # A dollar sign would begin a formula.
    names = [issuer[0].replace("$", r"\$")[:40] for issuer in issuers]
    places = range(len(issuers))
    for axes, place, color, label in ((left, 1, _BLUE, "certificates"), (right, 2, _RED, "revoked")):
        axes.barh(places, [issuer[place] for issuer in issuers], height=0.6, color=color)
        axes.set_xlabel(label)
        axes.set_xlim(left=0)
        axes.grid(axis="y", visible=False)
        _whole(axes.xaxis, 3)
    left.set_yticks(places, names)
    left.invert_yaxis()


def _coverage_figures(seen: Overview) -> list[tuple[str, list[tuple[int, int]]]]:
    """Per log of the newest epoch, by epoch: how far its coverage lies behind the moment."""
    lines = []
    for held in seen.release.row.coverage[:_LOGS]:
        behind = [
            (row.moment, row.moment - coverage.high)
            for row in seen.history
            for coverage in row.coverage
            if coverage.log == held.log
        ]
        lines.append((held.name, behind))
    return lines


def _draw_coverage(figure: Any, logs: list[tuple[str, list[tuple[int, int]]]]) -> None:
    axes = figure.subplots()
    for name, behind in logs:
        hours = [length / HOUR for _, length in behind]
        axes.plot(_moments(behind), hours, marker="o", markersize=3, label=name.replace("$", r"\$")[:40])
    axes.set_ylabel("hours behind the epoch")
    axes.set_ylim(bottom=0)
    if logs:
        axes.legend()
    _dated(axes)


CHARTS = {
    "history.svg": Chart(
        "Certificates and revoked ones by epoch",
        "Two lines: how many certificates the chain holds after each epoch, and how many of them are revoked.",
        _history_figures,
        _draw_history,
        4.4,
    ),
    "sizes.svg": Chart(
        "Published parts by epoch",
        "How many bytes the part of each epoch has, snapshots and deltas, on a logarithmic scale.",
        _size_figures,
        _draw_sizes,
        3.2,
    ),
    "issuers.svg": Chart(
        "Certificates and revoked ones by issuer",
        "Bars: how many certificates the chain holds of each issuer, and how many of them are revoked.",
        _issuer_figures,
        _draw_issuers,
        4.4,
    ),
    "coverage.svg": Chart(
        "Coverage of the logs",
        "A line a log: how many hours its covered times lie behind the moment of each epoch.",
        _coverage_figures,
        _draw_coverage,
        3.2,
    ),
}
"""The charts, by their names in the site."""


def _svg(chart: Chart, figures: Any) -> bytes:
    """Draws a chart, whatever style the user of the machine has set."""
    import matplotlib  # type: ignore[import]
    from matplotlib.figure import Figure  # type: ignore[import]

    with matplotlib.rc_context():
        matplotlib.rcdefaults()
        matplotlib.rcParams.update(_SETTINGS)
        figure = Figure(figsize=(8, chart.height))
        chart.draw(figure, figures)
        octets = io.BytesIO()
        figure.savefig(octets, format="svg", metadata={"Date": None, "Creator": None})
    return octets.getvalue()


def _mark(chart: Chart, figures: Any, body: bytes) -> bytes:
    """The comment behind a chart."""
    said = hashlib.sha256(repr((_VERSION, chart.title, figures)).encode("utf-8")).hexdigest()
    return f"<!-- figures {said} bytes {hashlib.sha256(body).hexdigest()} -->\n".encode("ascii")


def drawn(path: Path, chart: Chart, seen: Overview) -> bytes:
    """The chart's bytes: those of the file where it shows these figures already."""
    figures = chart.figures(seen)
    try:
        body, _, comment = path.read_bytes().rpartition(b"<!-- figures ")
    except FileNotFoundError:
        body, comment = b"", b""
    if body and b"<!-- figures " + comment == _mark(chart, figures, body):
        return body + _mark(chart, figures, body)
    body = _svg(chart, figures)
    return body + _mark(chart, figures, body)
