"""What all tests of this folder share."""

import os
import shutil
import sys
from pathlib import Path
from typing import Any

import pytest

PROJECT = Path(__file__).resolve().parents[2]
sys.path[:0] = [str(PROJECT), str(PROJECT / "python"), str(PROJECT / "tools")]

MISSING = [] if shutil.which("snakemake") else ["snakemake"]
try:
    import httpx  # noqa: F401
except ImportError:
    MISSING.append("python3-httpx")
collect_ignore = sorted(path.name for path in Path(__file__).parent.glob("test_*.py") if MISSING)


def pytest_configure(config: pytest.Config) -> None:
    """Files lie in memory, where there is such a place: most of what is written is waited for by fsync."""
    memory = Path("/dev/shm")
    if config.option.basetemp is None and os.access(memory, os.W_OK):
        config.option.basetemp = str(memory / f"clubcard-fleet-{os.getpid()}")
        config.add_cleanup(lambda: shutil.rmtree(config.option.basetemp, ignore_errors=True))


def pytest_sessionfinish(session: pytest.Session, exitstatus: int) -> None:
    """Where all is skipped that is no fault."""
    if MISSING and exitstatus == pytest.ExitCode.NO_TESTS_COLLECTED:
        session.exitstatus = pytest.ExitCode.OK


def pytest_terminal_summary(terminalreporter: Any) -> None:
    """Says what is skipped, and why."""
    if MISSING:
        terminalreporter.write_line(f"skipped: {', '.join(collect_ignore)}, since there is no {', '.join(MISSING)}")
