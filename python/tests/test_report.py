"""The page and its charts: what they say, and that the same state gives the same bytes."""

import re
import subprocess
import sys
from html.parser import HTMLParser
from pathlib import Path
from xml.etree import ElementTree

import pytest

from clubcard.publish import chain, charts, overview, report
from clubcard.publish.alarms import Alarm
from clubcard.times import DAY, HOUR

import site_world
from site_world import World


class Page(HTMLParser):
    """The page's tags with their attributes, and its text."""

    def __init__(self, text: str) -> None:
        super().__init__()
        self.tags: list[tuple[str, dict[str, str | None]]] = []
        self.open: list[str] = []
        self.text = ""
        self.feed(text)
        self.close()

    def handle_starttag(self, tag: str, attrs: list[tuple[str, str | None]]) -> None:
        self.tags.append((tag, dict(attrs)))
        self.text += " "
        if tag not in ("meta", "img"):
            self.open.append(tag)

    def handle_endtag(self, tag: str) -> None:
        assert self.open.pop() == tag

    def handle_data(self, data: str) -> None:
        self.text += data


def seen_of(world: World) -> overview.Overview:
    """What the state says."""
    release = world.release()
    assert release is not None
    return overview.read(site_world.config_of(world.state.folder.parent), world.state, release)


@pytest.fixture
def world(tmp_path: Path, monkeypatch: pytest.MonkeyPatch) -> World:
    """Forty epochs, of which the thirty-ninth is a rebase's and the last one has an issuer away."""
    _, made = site_world.world_of(tmp_path, monkeypatch)
    site_world.fill(made)
    for epoch in range(1, 43):
        made.epoch(rebased=epoch == 39)
    return made


def squeezed(text: str) -> str:
    """With one space between words."""
    return " ".join(text.split())


def test_page(world: World) -> None:
    """The page says what a person wants to see, and each tag is closed."""
    page = Page(report.to_html(seen_of(world)).decode())
    text = squeezed(page.text)
    assert not page.open
    for said in (
        "Generation 2, epoch 42, of 2026-06-08 08:26:40; valid until 2026-06-09 08:26:40.",
        "certificates 54,600",
        "revoked 462 (0.85 %)",
        "issuers enrolled 1 of 2",
        "entries that wait 3,414",
        'last enrolled issuer <b>"Second" & $x$',
        "http://127.0.0.1/2.crl is past its nextUpdate",
        "entries of Example log 2026: 1 set aside (unread); the first one has index 77",
        "CONFIG doesn't name the issuer",
        "newer than what is covered",
        "the issuer isn't enrolled: http://127.0.0.1/2.crl is past its nextUpdate",
        "status 404",
        "no answer within 30 s",
        "the beginning",
        "snapshot (rebase)",
        "Announced next key: none.",
    ):
        assert said in text, said
    for part in world.parts:
        assert ("a", {"href": f"parts/{part.sha256.hex()}.part"}) in page.tags


def test_nothing_from_elsewhere(world: World) -> None:
    """No script, no frame, no form; each link is one of the site's own files; and no name is taken as markup."""
    text = report.to_html(seen_of(world)).decode()
    page = Page(text)
    names = {tag for tag, _ in page.tags}
    assert not names & {"script", "iframe", "form", "link", "object", "embed", "b", "base"}
    links = [value for _, attributes in page.tags for key, value in attributes.items() if key in ("href", "src")]
    own = r"manifest\.json(\.minisig)?|metrics\.prom|(history|issuers|sizes|coverage)\.svg|parts/[0-9a-f]{64}\.part"
    assert links and all(re.fullmatch(own, link or "") for link in links)
    assert not [key for _, attributes in page.tags for key in attributes if key.startswith("on")]
    assert "default-src 'none'" in text and "url(" not in text and "@import" not in text
    assert all(attributes.get("alt") for tag, attributes in page.tags if tag == "img")


def test_least(tmp_path: Path, monkeypatch: pytest.MonkeyPatch) -> None:
    """The first epoch of a chain without logs, CRLs and alarms has a page and charts too."""
    _, world = site_world.world_of(tmp_path, monkeypatch)
    world.epoch()
    seen = seen_of(world)
    text = squeezed(Page(report.to_html(seen).decode()).text)
    assert "None in the last 1 epochs." in text
    assert "Nothing: each issuer of CONFIG is enrolled, and each entry can be read." in text
    for chart in charts.CHARTS.values():
        ElementTree.fromstring(charts._svg(chart, chart.figures(seen)))


def test_alarm_rows(world: World) -> None:
    """The same alarm of several epochs is one row, and those of the newest epoch come first."""
    rows = report.alarm_rows(world.rows)
    assert [(row.first, row.last, row.count) for row in rows] == [(3, 42, 14)]
    object.__setattr__(world.rows[-2], "alarms", (Alarm("clock", "a"), Alarm("log", "b")))
    rows = report.alarm_rows(world.rows)
    assert [(row.alarm.kind, row.last) for row in rows] == [("issuer", 42), ("clock", 41), ("log", 41)]


def test_why_it_waits(world: World) -> None:
    """Each reason that the state tells."""
    row = world.rows[-1]
    log, tiles = row.coverage

    def why(log: bytes, issuer: str, since: int) -> str:
        return report._why(chain.Waiting(log, site_world.key(issuer), 1, since), row)

    assert why(log.log, "first", log.high + 1) == "newer than what is covered"
    assert why(log.log, "first", log.high) == "some are late, the others are newer than what is covered"
    assert why(tiles.log, "first", tiles.low - 1) == "some are older than what is covered"
    assert why(site_world.key("none"), "first", 0) == "newer than what is covered"
    assert why(log.log, "third", 0) == "CONFIG doesn't name the issuer"
    assert why(log.log, "second", 0).startswith("the issuer isn't enrolled: ")


def test_many_rows(world: World) -> None:
    """Tables of what waits and of alarms are cut, and say how much is left out."""
    world.waits = [chain.Waiting(site_world.key("log"), site_world.key(str(n)), n, 0) for n in range(1, 61)]
    many = tuple(Alarm("count", f"entry {n}") for n in range(200))
    object.__setattr__(world.rows[-1], "alarms", many)
    text = squeezed(Page(report.to_html(seen_of(world)).decode()).text)
    assert "And 55 entries in 10 more rows" in text
    assert "And 101 more; standard error of each run had all of its own." in text


def test_times_that_no_calendar_has(world: World) -> None:
    """A log may give an entry any time of 64 bits, and a CRL one of the year 0: the page is made all the same."""
    world.waits = [chain.Waiting(site_world.key("log"), site_world.key("third"), 1, 2**63 - 1)]
    world.state.db.execute("UPDATE crl SET next_update = ? WHERE number = '17'", (-62_167_219_200_000,))
    text = squeezed(Page(report.to_html(seen_of(world)).decode()).text)
    assert "9999-12-31 00:00:00" in text and "0001-01-01 00:00:00" in text


@pytest.mark.parametrize(
    "length, said",
    [(None, "–"), (0, "0 s"), (999, "0 s"), (61_000, "1 min 1 s"), (DAY, "1 d"), (25 * HOUR + 999, "1 d 1 h")],
)
def test_durations(length: int | None, said: str) -> None:
    """A duration by its two greatest units."""
    assert report._duration(length) == said


DRAW = """
import hashlib, sys
from pathlib import Path
sys.path[:0] = sys.argv[1:3]
from clubcard.publish import charts
figures = [
    [(1780000000123 + n * 21600000, 1000 * n, n) for n in range(9)],
    [("Example <&> $x$", 9, 1), ("other", 7, 0)],
    [(1780000000123 + n * 21600000, "delta" if n % 4 else "snapshot", 100 * n + 1) for n in range(9)],
    [("log", [(1780000000123 + n * 21600000, 3600000 * n) for n in range(9)])],
]
for (name, chart), shown in zip(charts.CHARTS.items(), (figures[0], figures[2], figures[1], figures[3])):
    svg = charts._svg(chart, shown)
    print(name, hashlib.sha256(svg).hexdigest(), b"<dc:date>" in svg)
"""


def test_same_charts(tmp_path: Path) -> None:
    """Charts of the same figures are the same bytes in another process, under another user's style and time zone."""
    (tmp_path / "matplotlibrc").write_text("axes.facecolor: black\nsvg.hashsalt: other\ntimezone: Asia/Tokyo\n")
    package, tests = Path(charts.__file__).parents[2], Path(__file__).parent
    words = [sys.executable, "-c", DRAW, str(package), str(tests)]
    plain = {"PATH": "/usr/bin:/bin", "MPLCONFIGDIR": str(tmp_path / "none"), "PYTHONHASHSEED": "1"}
    styled = {**plain, "MATPLOTLIBRC": str(tmp_path), "TZ": "America/New_York", "PYTHONHASHSEED": "2", "LC_ALL": "C"}
    said = [subprocess.run(words, env=env, capture_output=True, check=True).stdout for env in (plain, styled)]
    assert said[0] == said[1] and said[0].count(b"False\n") == 4


def test_charts_say(world: World) -> None:
    """A chart is XML without scripts or links elsewhere, whose texts are texts."""
    seen = seen_of(world)
    for chart in charts.CHARTS.values():
        svg = charts._svg(chart, chart.figures(seen))
        root = ElementTree.fromstring(svg)
        assert not [node for node in root.iter() if node.tag.endswith("script")]
        links = [value for node in root.iter() for key, value in node.attrib.items() if key.endswith("href")]
        assert all(link.startswith("#") for link in links)
    issuers = charts._svg(charts.CHARTS["issuers.svg"], charts.CHARTS["issuers.svg"].figures(seen)).decode()
    assert "Example CA" in issuers and "&lt;b&gt;" in issuers


def test_drawn_once(world: World, tmp_path: Path, monkeypatch: pytest.MonkeyPatch) -> None:
    """A chart that is there with these figures isn't drawn again; one that is damaged or of other figures is."""
    chart, path, seen = charts.CHARTS["history.svg"], tmp_path / "history.svg", seen_of(world)
    drawn = []

    def draw(chart: charts.Chart, figures: object) -> bytes:
        drawn.append(figures)
        return b"<svg/>\n"

    monkeypatch.setattr(charts, "_svg", draw)
    octets = charts.drawn(path, chart, seen)
    path.write_bytes(octets)
    assert charts.drawn(path, chart, seen) == octets and len(drawn) == 1
    ElementTree.fromstring(octets)
    path.write_bytes(octets.replace(b"<svg/>", b"<svg />"))
    assert charts.drawn(path, chart, seen) == octets and len(drawn) == 2
    path.write_bytes(octets)
    world.epoch()
    assert charts.drawn(path, chart, seen_of(world)) != octets and len(drawn) == 3
