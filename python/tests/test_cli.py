"""The words of clubcard-publish: what they print, and with which status they end."""

import errno
import fcntl
import http.server
import io
import json
import os
import pty
import re
import subprocess
import sys
import threading
import tomllib
from pathlib import Path
from typing import Any

import pytest
from click.testing import CliRunner, Result

from clubcard.http import FetchError
from clubcard.progress import shown
from clubcard.publish import cli
from clubcard.publish.alarms import Alarms
from clubcard.version import version

from desk import HOUR, NOW, URL, Publisher

TOP = Path(__file__).resolve().parents[2]


@pytest.fixture
def desk(tmp_path: Path, plain_charts: None, monkeypatch: pytest.MonkeyPatch) -> Publisher:
    """A publisher whose command asks no network."""
    made = Publisher(tmp_path)
    monkeypatch.setattr("clubcard.publish.run.Client", lambda: made.web)
    return made


def said(*words: object) -> Result:
    """What a command came to."""
    result = CliRunner(mix_stderr=False).invoke(cli.main, [str(word) for word in words], prog_name="clubcard-publish")
    assert result.exception is None or isinstance(result.exception, SystemExit), result.exc_info
    return result


def stopped(status: int, *words: object) -> str:
    """The one line on standard error of a command that ends with a status."""
    result = said(*words)
    assert (result.exit_code, result.stdout) == (status, "")
    (line,) = result.stderr.splitlines()
    assert line.startswith("clubcard-publish: ")
    return line.removeprefix("clubcard-publish: ")


def test_run(desk: Publisher) -> None:
    result = said("run", desk.file, "--now", NOW)
    assert (result.exit_code, result.stderr) == (0, "")
    assert result.stdout == "epoch 1 generation 1 parts 1 shown 0 waiting 0 universe 0 revoked 0\n"
    assert said("run", desk.file, "--now", "2023-11-14T22:13:20Z").stdout == result.stdout
    assert said("run", "--now", "2023-11-15T00:13:20+01:00", desk.file).stdout.startswith("epoch 2 ")


def test_run_by_the_clock(desk: Publisher, monkeypatch: pytest.MonkeyPatch) -> None:
    monkeypatch.setattr("time.time_ns", lambda: NOW * 1_000_000 + 999_999)
    assert said("run", desk.file).exit_code == 0
    manifest = json.loads((desk.folder / "site" / "manifest.json").read_text())
    assert manifest["moment"] == "2023-11-14T22:13:20.000Z"


def test_run_with_alarms(desk: Publisher) -> None:
    desk.web.pages[URL] = FetchError("status 404", 404)
    result = said("run", desk.file, "--now", NOW)
    assert result.exit_code == 10 and result.stdout.startswith("epoch 1 ")
    assert re.fullmatch(rf'alarm issuer: "Example CA" is left out: {URL}: .*\n', result.stderr)


def test_clock_goes_back(desk: Publisher) -> None:
    said("run", desk.file, "--now", NOW)
    assert "before the newest epoch" in stopped(3, "run", desk.file, "--now", NOW - 1)


def test_locked(desk: Publisher) -> None:
    said("run", desk.file, "--now", NOW)
    with open(desk.folder / "state" / "lock", "a", encoding="ascii") as file:
        fcntl.flock(file, fcntl.LOCK_EX)
        assert "another run holds the lock" in stopped(4, "run", desk.file, "--now", NOW + HOUR)
        assert "another run holds the lock" in stopped(4, "fetch", desk.file)
        assert said("status", desk.file).exit_code == 0


def test_fetch(desk: Publisher) -> None:
    result = said("fetch", desk.file, "--now", NOW)
    assert (result.exit_code, result.stdout, result.stderr) == (0, "", "")
    desk.web.pages.clear()
    assert said("run", desk.file, "--now", NOW).exit_code == 0


def test_key_ends_it(desk: Publisher, monkeypatch: pytest.MonkeyPatch) -> None:
    def stop(*_: Any) -> None:
        raise KeyboardInterrupt

    monkeypatch.setattr("clubcard.publish.run.fetch_crls", stop)
    assert "nothing is lost" in stopped(3, "run", desk.file, "--now", NOW)


@pytest.mark.parametrize("word", ["run", "fetch", "status", "check"])
def test_config_is_refused(desk: Publisher, word: str) -> None:
    desk.write("sate = 'x'")
    told = stopped(2, word, desk.file)
    assert told == f'{desk.file}: there is no key "sate" here: is it "state"? Else take it out'
    assert "it can't be read" in stopped(2, word, desk.folder / "none.toml")
    assert "it can't be read" in stopped(2, word, desk.folder)


@pytest.mark.parametrize(
    "words",
    [
        ["nothing"],
        ["run"],
        ["run", "a", "b"],
        ["run", "x.toml", "--now", "soon"],
        ["run", "x.toml", "--now", "-1"],
        ["run", "x.toml", "--now", "9" * 20],
        ["run", "x.toml", "--now", "9" * 5000],
        ["run", "x.toml", "--now", "2023-13-01"],
        ["run", "x.toml", "--now", "9999-01-01"],
        ["run", "x.toml", "--now", "1969-12-31"],
        ["run", "x.toml", "--now", "٣"],
        ["run", "x.toml", "--later"],
        ["status", "x.toml", "--yaml"],
    ],
)
def test_wrong_words(words: list[str]) -> None:
    result = said(*words)
    assert result.exit_code == 2 and result.stderr and not result.stdout


def test_one_version() -> None:
    project = tomllib.loads((TOP / "python" / "pyproject.toml").read_text(encoding="utf-8"))["project"]
    assert project["version"] == (TOP / "VERSION").read_text(encoding="ascii").strip()


def test_help_and_version() -> None:
    assert said("--version").stdout == f"clubcard-publish, version {version()}\n"
    told = said("--help").stdout
    assert all(word in told for word in ("init", "check", "fetch", "run", "status", "demo"))
    for word in ("init", "check", "fetch", "run", "status", "demo"):
        assert said(word, "-h").exit_code == 0


def test_check(desk: Publisher) -> None:
    desk.write('next_key = "publisher.pub"')
    result = said("check", desk.file)
    assert result.exit_code == 0 and not result.stderr
    assert result.stdout.splitlines()[0] == "CONFIG: 1 issuers with 1 CRLs, 0 logs"
    assert "there is no [[log]]" in result.stdout
    assert not (desk.folder / "state").exists() and not (desk.folder / "site").exists()
    assert not desk.web.asked


@pytest.mark.parametrize("program", ["./none", "none-of-this-name", "/bin/true", "/bin/false", "/"])
def test_check_finds_another_program(desk: Publisher, program: str) -> None:
    desk.write(program=program)
    result = said("check", desk.file)
    assert result.exit_code == 2
    assert result.stderr.startswith("program: ") and len(result.stderr.splitlines()) == 1


def test_check_finds_a_folder_that_is_none(desk: Publisher) -> None:
    (desk.folder / "state").write_text("x")
    result = said("check", desk.file)
    assert result.exit_code == 2 and "is no folder" in result.stderr


def test_check_without_minisign(desk: Publisher, monkeypatch: pytest.MonkeyPatch) -> None:
    monkeypatch.setattr("clubcard.minisign.PROGRAM", "none-of-this-name")
    result = said("check", desk.file)
    assert result.exit_code == 2 and "install Debian's package minisign" in result.stderr


def test_status(desk: Publisher) -> None:
    assert "there is no state yet" in stopped(3, "status", desk.file)
    assert not (desk.folder / "state").exists()
    said("fetch", desk.file, "--now", NOW)
    assert said("status", desk.file).stdout.startswith("example: no epoch was published yet\n")
    said("run", desk.file, "--now", NOW)
    desk.web.pages.clear()
    said("run", desk.file, "--now", NOW + HOUR)
    lines = said("status", desk.file, "--now", NOW + HOUR).stdout.splitlines()
    assert lines[0] == "example: epoch 2 of 2023-11-14T23:13:20.000Z, generation 1, 2 parts"
    assert lines[2] == "  valid until 2023-11-15T23:13:20.000Z"
    assert "issuer Example CA: enrolled" in lines
    assert any(line.startswith(f"  {URL}: number 1 of") and line.endswith("status 404") for line in lines)
    assert said("status", desk.file).stdout.splitlines()[2].endswith(": it isn't any more")


def test_status_as_json(desk: Publisher) -> None:
    said("run", desk.file, "--now", NOW)
    found = json.loads(said("status", desk.file, "--json", "--now", NOW).stdout)
    assert found["newest"]["epoch"] == 1 and found["is_valid"] is True
    assert [each["epoch"] for each in found["epochs"]] == [1]
    (issuer,) = found["issuers"]
    assert (issuer["name"], issuer["enrolled"], issuer["reason"]) == ("Example CA", True, None)
    assert issuer["crls"][0]["url"] == URL and issuer["crls"][0]["why"] is None


def test_status_of_a_damaged_state(desk: Publisher) -> None:
    (desk.folder / "state").mkdir()
    (desk.folder / "state" / "state.sqlite").write_bytes(b"none" * 1000)
    assert "not a database" in stopped(3, "status", desk.file)


def test_init_then_check(tmp_path: Path) -> None:
    folder = tmp_path / "new"
    files = said("init", folder)
    assert files.exit_code == 0
    assert all(Path(line).exists() for line in files.stdout.splitlines())
    assert stopped(3, "init", folder)


def environment() -> dict[str, str]:
    """That of a command of its own."""
    return {**os.environ, "PYTHONPATH": str(TOP / "python")}


def test_module() -> None:
    words = [sys.executable, "-m", "clubcard.publish", "--version"]
    done = subprocess.run(words, env=environment(), capture_output=True, text=True, check=True)
    assert done.stdout == f"clubcard-publish, version {version()}\n"


class Screen(io.StringIO):
    """A terminal."""

    def isatty(self) -> bool:
        """It is one."""
        return True


def test_progress_on_a_terminal(monkeypatch: pytest.MonkeyPatch) -> None:
    screen = Screen()
    monkeypatch.setenv("TERM", "xterm")
    monkeypatch.setenv("COLUMNS", "60")
    monkeypatch.setattr(sys, "stderr", screen)
    with shown() as progress, progress.task("entries", 30) as task:
        task.advance(20)
        Alarms().add("log", "x" * 100)
    assert "entries" in screen.getvalue() and "30" in screen.getvalue()
    assert f"alarm log: {'x' * 100}" in screen.getvalue()


def test_progress_elsewhere(monkeypatch: pytest.MonkeyPatch) -> None:
    file = io.StringIO()
    monkeypatch.setattr(sys, "stderr", file)
    with shown() as progress, progress.task("entries", 30) as task:
        task.advance(20)
    assert not file.getvalue()


class Handler(http.server.BaseHTTPRequestHandler):
    """Answers with the CRL."""

    crl = b""

    def do_GET(self) -> None:  # pylint: disable=invalid-name
        """The CRL."""
        self.send_response(200)
        self.send_header("Content-Length", str(len(self.crl)))
        self.end_headers()
        self.wfile.write(self.crl)


def read_terminal(ours: int) -> str:
    """All that a process wrote to its terminal, until it closed it."""
    told = b""
    with open(ours, "rb", buffering=0) as file:
        try:
            while octets := file.read(10_000):
                told += octets
        except OSError as fault:
            assert fault.errno == errno.EIO
    return told.decode()


def test_whole_on_a_terminal(desk: Publisher) -> None:
    """The command in a process of its own, over a server, with a terminal as standard error."""
    page = desk.web.pages[URL]
    assert isinstance(page, bytes)
    handler = type("Crl", (Handler,), {"crl": page, "log_message": lambda *_: None})
    server = http.server.ThreadingHTTPServer(("127.0.0.1", 0), handler)
    thread = threading.Thread(target=server.serve_forever, kwargs={"poll_interval": 0.02})
    thread.start()
    ours, theirs = pty.openpty()
    url = f"http://127.0.0.1:{server.server_port}/r1.crl"
    desk.file.write_text(desk.file.read_text().replace(URL, url))
    words = [sys.executable, "-m", "clubcard.publish", "run", str(desk.file), "--now", str(NOW)]
    with subprocess.Popen(words, env=environment(), stdout=subprocess.PIPE, stderr=theirs) as process:
        os.close(theirs)
        told = read_terminal(ours)
        printed, _ = process.communicate()
    server.shutdown()
    server.server_close()
    thread.join()
    assert process.returncode == 0, told
    assert printed.decode().startswith("epoch 1 generation 1 parts 1 ")
    assert "CRLs" in told
