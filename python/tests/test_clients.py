"""The steps of docs/CLIENTS.md, done as they stand there: its CONFIG, its commands, and the unit and the timer."""

import os
import re
import shutil
import subprocess
import sys
import tomllib
from pathlib import Path

import pytest

from clubcard.times import DAY
from clubcard.update.config import load
from followed import Follower, History, Web
from made import TOP

TEXT = (TOP / "docs" / "CLIENTS.md").read_text(encoding="utf-8")
BLOCKS: list[str] = [block.replace("\n    ", "\n").strip() for block in re.findall(r"(?m)(?:^    .*\n)+", TEXT)]
UNITS = TOP / "python" / "clubcard" / "update" / "systemd"


def block(begin: str) -> str:
    """The block of the document that begins so."""
    (found,) = [text for text in BLOCKS if text.startswith(begin)]
    return found


def keys() -> dict[str, object]:
    """The keys that the document explains, with the values that it gives them."""
    told = re.findall(r"`([a-z_]+ = [^`]+)`", TEXT)
    return tomllib.loads("\n".join(told))


def call(folder: Path, *lines: str) -> subprocess.CompletedProcess[str]:
    """Lines of the document in the client's folder, with the programs of this tree."""
    environment = {**os.environ, "PATH": f"{TOP}:{os.environ['PATH']}", "CLUBCARD_PYTHON": sys.executable}
    text = "\n".join(lines).replace("/var/lib/clubcard-client", str(folder))
    return subprocess.run(["sh", "-c", text], cwd=folder, env=environment, capture_output=True, text=True, check=False)


def test_words() -> None:
    """It is short, and names each key of CONFIG and each status."""
    assert len(TEXT.split()) <= 1000
    least = tomllib.loads(block("site ="))
    assert set(least) == {"site", "key", "store"}
    assert set(keys()) == {"state", "max_age", "device", "capacity", "program"}
    rows = re.findall(r"(?m)^\| (\d)", TEXT)
    assert "".join(rows) == "0123456" + "012345"


def test_config(tmp_path: Path) -> None:
    """CONFIG as it stands, and with each of the other keys."""
    (tmp_path / "client.toml").write_text(block("site ="))
    config = load(tmp_path / "client.toml")
    assert (config.place, config.capacity, config.max_age) == (tmp_path / "revocation.store", None, None)
    assert (config.state, config.program) == (tmp_path / "state", "clubcard")
    lines = [line for line in block("site =").splitlines() if not line.startswith("store")]
    more = [
        f"{key} = {value if isinstance(value, int) else chr(34) + str(value) + chr(34)}"
        for key, value in keys().items()
    ]
    (tmp_path / "client.toml").write_text("\n".join([*lines, *more]))
    config = load(tmp_path / "client.toml")
    assert (config.place, config.capacity) == (tmp_path / "revocation.device", 64 << 20)
    assert config.max_age == DAY * 3 // 2


def test_commands(history: History, web: Web, tmp_path: Path) -> None:
    """The update with its line, the cron line, the file that is removed to begin anew, and the watching."""
    client = Follower(
        tmp_path / "client", history, web.base, words={"store": "revocation.store", "program": "clubcard"}
    )
    web.show(history.shown(5))
    now = history.now(5)
    assert client.file.name == "client.toml"
    update = re.search(r"-- (clubcard-update client.toml) +# (updated epoch \d+ parts \d+)\n", TEXT)
    assert update is not None
    done = call(client.folder, f"{update[1]} --now {now}")
    assert (done.returncode, done.stderr) == (0, "")
    assert re.sub(r"\d+", "N", done.stdout) == re.sub(r"\d+", "N", update[2]) + "\n"
    cron = block("PATH=").split(" * * * * clubcard-client ")[1].replace(">", f"--now {now} >")
    done = call(client.folder, cron)
    assert (done.returncode, done.stdout, done.stderr) == (0, "", "")
    web.show(history.shown(4))
    assert call(client.folder, f"{update[1]} --now {now}").returncode == 4
    assert call(client.folder, block("rm "), f"{update[1]} --now {now}").returncode == 0
    (find,) = [line for line in block("systemctl is-failed").splitlines() if line.startswith("find")]
    assert call(client.folder, find).returncode == 0
    os.utime(client.folder / "state" / "manifest.json", (0, 0))
    assert call(client.folder, find).returncode == 1


def test_asking(history: History, web: Web, tmp_path: Path) -> None:
    """The words of `clubcardctl ask`: over no certificate, which is a fault."""
    words = block("clubcardctl ask")
    if "--manifest" not in call(tmp_path, "clubcardctl ask --help").stdout:
        pytest.skip("clubcardctl ask has no --manifest yet")
    client = Follower(tmp_path / "client", history, web.base, words={"store": "revocation.store"})
    web.show(history.shown(5))
    assert client.run(history.now(5)).status == 0
    (client.folder / "site.pem").write_text("")
    done = call(client.folder, words)
    assert done.returncode >= 5 and "site.pem" in done.stderr and "another store" not in done.stderr, done.stderr


@pytest.mark.skipif(shutil.which("systemd-analyze") is None, reason="systemd-analyze isn't installed")
def test_units(tmp_path: Path) -> None:
    """systemd reads the unit and the timer and has nothing to say, and their words are the document's."""
    unit = (UNITS / "clubcard-update.service").read_text(encoding="utf-8")
    assert "\nExecStart=clubcard-update /var/lib/clubcard-client/client.toml\n" in unit
    assert "\nSuccessExitStatus=5 6\n" in unit
    # Neither the program nor its manual page is installed here.
    plain = re.sub(r"(?m)^ExecStart=.*$", "ExecStart=/bin/true", re.sub(r"(?m)^Documentation=.*$", "", unit))
    (tmp_path / "clubcard-update.service").write_text(plain)
    shutil.copy(UNITS / "clubcard-update.timer", tmp_path)
    words = ["systemd-analyze", "verify", *sorted(str(path) for path in tmp_path.iterdir())]
    done = subprocess.run(words, capture_output=True, text=True, check=False)
    assert (done.returncode, done.stderr) == (0, "")
