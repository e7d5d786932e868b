"""The demonstration: it ends well, and it would tell a wrong verdict."""

import shutil
from pathlib import Path

import pytest

from clubcard.answers import Verdict
from clubcard.engine import Engine
from clubcard.publish import chain, charts, demo, site
from clubcard.publish.config import Config
from clubcard.publish.state import State

PROGRAM = Path(__file__).resolve().parents[2] / "release" / "clubcard-x86_64-linux"
pytestmark = [
    pytest.mark.skipif(shutil.which("minisign") is None, reason="minisign isn't installed (Debian's package minisign)"),
    pytest.mark.skipif(not PROGRAM.exists(), reason="there is no program in release/"),
]


@pytest.fixture
def small(monkeypatch: pytest.MonkeyPatch) -> None:
    """Two epochs of thirty certificates, without matplotlib."""
    monkeypatch.setattr(demo, "EPOCHS", 2)
    monkeypatch.setattr(demo, "CERTIFICATES", 30)
    monkeypatch.setattr(demo, "_FIRST", 20)
    monkeypatch.setattr(charts, "_svg", lambda chart, figures: b"<svg/>")


def test_whole(tmp_path: Path) -> None:
    """All of it: four epochs, 300 certificates, a revocation in each, and no wrong verdict."""
    said: list[str] = []
    assert demo.run_demo(tmp_path / "demo", str(PROGRAM), said.append) == 0
    assert [line.split(":")[1] for line in said if line.startswith("  ")] == [
        " 5 not-covered, 174 good, 1 revoked; none of them wrong",
        " 5 not-covered, 213 good, 2 revoked; none of them wrong",
        " 5 not-covered, 252 good, 3 revoked; none of them wrong",
        " 5 not-covered, 291 good, 4 revoked; none of them wrong",
    ]
    assert len(list((tmp_path / "demo" / "certificates").iterdir())) == 300
    page = (tmp_path / "demo" / "site" / "index.html").read_text(encoding="utf-8")
    state = State.open(tmp_path / "demo" / "state")
    rows = chain.history(state, 3)
    assert [row.epoch for row in rows] == [2, 3, 4] and len(chain.history(state, 9)) == 4
    assert chain.epochs_since(state, rows[1].moment) == {3, 4}
    assert "None in the last 4 epochs." in page and "Nothing: each issuer of CONFIG is enrolled" in page


def test_wrong_verdicts(tmp_path: Path, small: None, monkeypatch: pytest.MonkeyPatch) -> None:
    """A store that says good of everything is told, certificate by certificate."""
    monkeypatch.setattr(Engine, "query_cert", lambda *words: Verdict.GOOD)
    said: list[str] = []
    assert demo.run_demo(tmp_path / "demo", str(PROGRAM), said.append) == 1
    wrong = [line for line in said if line.startswith("WRONG: ")]
    assert [line for line in wrong if "7.der is revoked, and the store says good" in line]
    assert [line for line in wrong if "is not-covered, and the store says good" in line]


def test_other_parts(tmp_path: Path, small: None, monkeypatch: pytest.MonkeyPatch) -> None:
    """Parts that aren't what the manifest says, and a manifest that isn't what was signed, are told."""
    publish = site.publish_site

    def damaging(config: Config, state: State) -> None:
        publish(config, state)
        for path in (config.site / "parts").glob("*.part"):
            path.write_bytes(b"x" * path.stat().st_size)

    monkeypatch.setattr("clubcard.publish.run.publish_site", damaging)
    with pytest.raises(demo.DemoError, match="isn't what the manifest says"):
        demo.run_demo(tmp_path / "parts", str(PROGRAM), print)

    def resigned(config: Config, state: State) -> None:
        publish(config, state)
        for path in config.site.glob("manifest-*.minisig"):
            path.write_bytes(path.read_bytes().replace(b"epoch 1", b"epoch 2"))

    monkeypatch.setattr("clubcard.publish.run.publish_site", resigned)
    with pytest.raises(demo.DemoError, match="signature isn't verified"):
        demo.run_demo(tmp_path / "signature", str(PROGRAM), print)


def test_refused(tmp_path: Path, small: None) -> None:
    """A folder that isn't empty, and a program that isn't there, are told with what to do."""
    (tmp_path / "mine").write_text("")
    with pytest.raises(demo.DemoError, match="isn't empty: name a new folder"):
        demo.run_demo(tmp_path, str(PROGRAM), print)
    assert [path.name for path in tmp_path.iterdir()] == ["mine"]
    with pytest.raises(demo.DemoError, match="can't be written"):
        demo.run_demo(tmp_path / "mine" / "below", str(PROGRAM), print)
    with pytest.raises(demo.DemoError, match="clubcard-that-is-not-there"):
        demo.run_demo(tmp_path / "new", str(tmp_path / "clubcard-that-is-not-there"), print)
