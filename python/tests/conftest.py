"""What all tests of this folder share."""

import os
import shutil
import sys
from collections.abc import Iterator
from importlib.util import find_spec
from pathlib import Path
from typing import Any

import pytest

PROJECT = Path(__file__).resolve().parents[2]
sys.path.insert(0, str(PROJECT / "python"))
os.environ.setdefault("CLUBCARD_LIBRARY", str(PROJECT / "release" / "libclubcard.so"))


def _missing() -> list[str]:
    """What the tests over the small web want and this machine hasn't."""
    programs = [name for name in ("nginx", "openssl", "minisign") if shutil.which(name) is None]
    packages = []
    for name in ("cryptography", "httpx", "click", "rich", "jinja2", "matplotlib", "hypothesis"):
        try:
            __import__(name)
        except ImportError:
            packages.append(f"python3-{name}")
    return programs + packages


MISSING = _missing()

if find_spec("hypothesis") is not None:
    from hypothesis import HealthCheck, settings

    # On a machine that is busy a test is slow and not wrong.
    settings.register_profile("clubcard", database=None, deadline=None, suppress_health_check=[HealthCheck.too_slow])
    settings.load_profile("clubcard")


BARE = ["test_clubcard.py", "test_properties.py"]
"""Tests that need none of them but pytest and Hypothesis. All others need them all."""
SKIPPED = sorted(path.name for path in Path(__file__).parent.glob("test_*.py") if MISSING and path.name not in BARE)
collect_ignore = SKIPPED


def pytest_configure(config: pytest.Config) -> None:
    """Files lie in memory, where there is such a place: most of what is written is waited for by fsync."""
    memory = Path("/dev/shm")
    if config.option.basetemp is None and os.access(memory, os.W_OK):
        config.option.basetemp = str(memory / f"clubcard-tests-{os.getpid()}")
        config.add_cleanup(lambda: shutil.rmtree(config.option.basetemp, ignore_errors=True))


@pytest.fixture(name="plain_charts")
def with_plain_charts(monkeypatch: pytest.MonkeyPatch) -> None:
    """Charts that aren't drawn, which would take most of a small epoch's time."""
    monkeypatch.setattr("clubcard.publish.charts._svg", lambda chart, figures: f"<svg>{figures}</svg>".encode())


@pytest.fixture(name="history", scope="session")
def published_history(tmp_path_factory: pytest.TempPathFactory) -> Any:
    """A site of many epochs, which the updater's tests share."""
    from followed import made_history

    return made_history(tmp_path_factory.mktemp("history"))


@pytest.fixture(name="web")
def small_web() -> Iterator[Any]:
    """A small web server, which may lie."""
    from followed import Web

    made = Web()
    yield made
    made.close()


def pytest_terminal_summary(terminalreporter: Any) -> None:
    """Says what is skipped, and why."""
    if MISSING:
        terminalreporter.write_line(f"skipped: {', '.join(SKIPPED)}, since there is no {', '.join(MISSING)}")
