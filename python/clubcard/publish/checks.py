"""`clubcard-publish check`: whether a run could begin with this CONFIG. No issuer and no log is asked."""

import functools
import os
import tempfile
from collections.abc import Callable, Iterator
from dataclasses import dataclass
from pathlib import Path

from .. import minisign
from ..engine import Engine, EngineError, ReadFailed
from .config import Config, hints


@dataclass(frozen=True)
class Found:
    """What one test found: `is_fault` where no run can begin with it."""

    is_fault: bool
    text: str


def checks(config: Config) -> Iterator[Found]:
    """Tests the program, the key and the folders of a CONFIG that was read."""
    urls = sum(len(issuer.crls) for issuer in config.issuers)
    yield Found(False, f"CONFIG: {len(config.issuers)} issuers with {urls} CRLs, {len(config.logs)} logs")
    for hint in hints(config):
        yield Found(False, f"CONFIG: {hint}")
    yield _tested("program", config.program, functools.partial(_try_program, config.program))
    yield _tested("key", str(config.key), functools.partial(_try_key, config.key))
    for name, folder in (("state", config.state), ("site", config.site)):
        yield _tested(name, str(folder), functools.partial(_try_folder, folder))


def _tested(name: str, value: str, test: Callable[[], str | None]) -> Found:
    """What a test says, which gives a fault or None."""
    try:
        fault = test()
    except (EngineError, minisign.MinisignError) as error:
        fault = str(error)
    return Found(fault is not None, f"{name}: {value}: {fault or 'fine'}")


def _try_program(program: str) -> str | None:
    """Asks the program for a file that isn't there, and looks whether it says so as the program does."""
    with tempfile.TemporaryDirectory() as folder:
        try:
            Engine(program).check(Path(folder) / "none")
        except ReadFailed:
            return None
    return "it says nothing of a file that isn't there: name the program of this version"


def _try_key(key: Path) -> str | None:
    """Signs something."""
    with tempfile.TemporaryDirectory() as folder:
        file = Path(folder) / "file"
        file.write_bytes(b"check")
        minisign.sign(file, Path(folder) / "signature", key, "check")
    return None


def _try_folder(folder: Path) -> str | None:
    """Whether a folder, or the one in which it is to be made, can be written."""
    there = next(path for path in (folder, *folder.parents) if path.exists())
    if not there.is_dir():
        return f"{there} is no folder: move it away, or name another one"
    if not os.access(there, os.W_OK | os.X_OK):
        return f"{there} can't be written: give the publisher's user the right"
    return None
