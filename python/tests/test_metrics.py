"""metrics.prom: what it says, and that Prometheus reads it."""

import re
import shutil
import subprocess
from pathlib import Path

import pytest

from clubcard.publish import metrics, overview
from clubcard.times import DAY

import site_world


def seen_of(folder: Path, monkeypatch: pytest.MonkeyPatch) -> overview.Overview:
    """Three epochs; in the third one an issuer is away."""
    config, world = site_world.world_of(folder, monkeypatch)
    site_world.fill(world)
    world.epoch()
    world.epoch()
    world.epoch()
    release = world.release()
    assert release is not None
    return overview.read(config, world.state, release)


def values(text: str) -> dict[str, str]:
    """Samples by name and labels."""
    lines = [line for line in text.splitlines() if not line.startswith("#")]
    return {name: value for name, value in (line.rsplit(" ", 1) for line in lines)}


def test_samples(tmp_path: Path, monkeypatch: pytest.MonkeyPatch) -> None:
    """Each metric has its value, in seconds and bytes, and each text of a label is escaped."""
    seen = seen_of(tmp_path, monkeypatch)
    said = values(metrics.to_text(seen).decode())
    moment = site_world.START + 3 * site_world.STEP
    log, tiles = site_world.key("log").hex(), site_world.key("tiles").hex()
    first, second = site_world.key("first").hex(), site_world.key("second").hex()
    assert said["clubcard_epoch"] == "3"
    assert said["clubcard_moment_seconds"] == f"{moment // 1000}.{moment % 1000:03d}"
    assert said["clubcard_valid_until_seconds"] == f"{(moment + DAY) // 1000}.{moment % 1000:03d}"
    assert said["clubcard_parts"] == "3"
    assert said['clubcard_part_bytes{kind="snapshot"}'] == str(seen.release.parts[0].length)
    assert said['clubcard_part_bytes{kind="delta"}'] == str(sum(part.length for part in seen.release.parts[1:]))
    assert said["clubcard_universe"] == "3900" and said["clubcard_revoked"] == "33"
    assert said[f'clubcard_waiting{{log="{tiles}",issuer="{second}"}}'] == "2"
    assert said[f'clubcard_issuer_enrolled{{issuer="{first}",name="Example CA"}}'] == "1"
    assert said[f'clubcard_issuer_enrolled{{issuer="{second}",name="<b>\\"Second\\" & $x$"}}'] == "0"
    assert said[f'clubcard_log_entries{{log="{tiles}",name="Example tiles"}}'] == "4900"
    covered = f'clubcard_log_covered_to_seconds{{log="{log}",name="Example log 2026"}}'
    assert said[covered] == f"{(moment - DAY - 180_000) // 1000}.123"
    assert said[f'clubcard_crl_age_seconds{{issuer="{first}",url="http://127.0.0.1/1.crl"}}'] == "64800"
    assert said[f'clubcard_crl_age_seconds{{issuer="{second}",url="http://127.0.0.1/2.crl?\\"\\\\"}}'] == "151200"
    assert not [name for name in said if "3.crl" in name or "former.crl" in name], "no CRL, and none of CONFIG"


def test_seconds() -> None:
    """Milliseconds are written exactly, also below 0."""
    assert [metrics._seconds(time) for time in (0, 1000, 1001, -1, -1500)] == ["0", "1", "1.001", "-0.001", "-1.500"]


def test_names(tmp_path: Path, monkeypatch: pytest.MonkeyPatch) -> None:
    """Exactly these metrics, each with its help and type."""
    text = metrics.to_text(seen_of(tmp_path, monkeypatch)).decode()
    names = re.findall(r"^# HELP (\S+) .+\n# TYPE \1 gauge$", text, re.MULTILINE)
    assert names == [
        "clubcard_epoch",
        "clubcard_moment_seconds",
        "clubcard_valid_until_seconds",
        "clubcard_parts",
        "clubcard_part_bytes",
        "clubcard_universe",
        "clubcard_revoked",
        "clubcard_waiting",
        "clubcard_issuer_enrolled",
        "clubcard_log_covered_to_seconds",
        "clubcard_log_entries",
        "clubcard_crl_age_seconds",
    ]


@pytest.mark.skipif(shutil.which("promtool") is None, reason="promtool isn't installed (Debian's package prometheus)")
def test_promtool(tmp_path: Path, monkeypatch: pytest.MonkeyPatch) -> None:
    """Prometheus' own program reads it and has nothing to say."""
    text = metrics.to_text(seen_of(tmp_path, monkeypatch))
    done = subprocess.run(["promtool", "check", "metrics"], input=text, capture_output=True, check=False)
    assert (done.returncode, done.stdout, done.stderr) == (0, b"", b"")
