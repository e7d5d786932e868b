"""What the program says of a file, by a command that reads such a one and writes nothing."""

import hashlib
import os
import tempfile
from dataclasses import dataclass
from pathlib import Path

from ..engine import (
    BrokenChain,
    DamagedDevice,
    Engine,
    EngineError,
    PassedLimit,
    RefusedCrl,
    WrongLayout,
)
from ..jobs import JobWriter
from ..layout.kinds import FileKind

# What is wrong with a file itself.
_REFUSALS = (WrongLayout, DamagedDevice, BrokenChain, PassedLimit, RefusedCrl)
_COMMANDS: dict[FileKind, str] = {
    "part": "check",
    "store": "query",
    "ledger": "delta",
    "job": "delta",
    "queries": "rehearse",
    "device": "device-query",
}
_NONE = bytes(32)


@dataclass(frozen=True)
class Said:
    """What the program says of a file.

    command: its word; accepts: whether it takes the file, None where it gave no answer; line: why not, without the
    file's name; status: its own, 0 where it takes the file; remedy: what to do.
    """

    command: str
    accepts: bool | None
    line: str = ""
    status: int = 0
    remedy: str = ""


def beside() -> str:
    """The program that goes with this package: that of its tree or of its installation, else the one on PATH."""
    here = Path(__file__).resolve().parents[1]
    # tools/install.sh puts the package into PREFIX/lib/python3.11/site-packages, or a folder of this depth.
    in_tree, installed = here.parents[1] / "release" / "clubcard-x86_64-linux", here.parents[3] / "bin" / "clubcard"
    if here.parts[-2:] == ("python", "clubcard") and in_tree.exists():
        return str(in_tree)
    return str(installed) if installed.exists() else "clubcard"


def ask(program: str, name: str, kind: FileKind) -> Said:
    """What a program says of a file, which is taken for one of a kind."""
    command = _COMMANDS[kind]
    if name.startswith(("/dev/", "/proc/")):
        # What /dev/stdin stands for is another file in the program.
        name = os.path.realpath(name)
    try:
        with tempfile.TemporaryDirectory(prefix="clubcardctl-") as folder:
            _run(Engine(program), name, kind, Path(folder))
    except EngineError as error:
        accepts = False if isinstance(error, _REFUSALS) else None
        return Said(command, accepts, error.line.removesuffix(f" {name}"), error.status, error.remedy)
    except OSError as error:
        return Said(command, None, f"{error.strerror}", 0, "look at the room of the folder for temporary files")
    return Said(command, True)


def _run(engine: Engine, name: str, kind: FileKind, folder: Path) -> None:
    """Has the program read a file. A fault of the file raises an `EngineError`."""
    if kind == "part":
        engine.check(name)
    elif kind == "store":
        engine.query(name, _NONE, b"\0", [(_NONE, 0)])
    elif kind == "device":
        engine.device_query(name, _NONE, b"\0", [(_NONE, 0)])
    elif kind == "queries":
        engine.rehearse(name, 1, [_empty_job(folder)])
    elif kind == "ledger":
        _read_both(engine, _empty_job(folder), name, folder)
    else:
        _read_both(engine, name, _last_ledger(folder), folder)


def _read_both(engine: Engine, job: str | Path, ledger: str | Path, folder: Path) -> None:
    """Has a job and a ledger read that don't go together, since the job's epoch isn't greater than that of the ledger's
    newest part: so nothing is built or written. The program says so once it has read both, and has accepted the CRLs of
    the job."""
    try:
        engine.delta(job, ledger, folder / "part", folder / "ledger.next", 1)
    except BrokenChain as error:
        if error.why != "epoch":
            raise


def _empty_job(folder: Path) -> Path:
    """A job of epoch 0 with nothing in it: no epoch is less."""
    with open(folder / "job", "wb") as file, JobWriter(file) as job:
        job.header(0, 0)
    return folder / "job"


def _last_ledger(folder: Path) -> Path:
    """A ledger of one part with nothing in it, behind whose epoch there is none."""
    part = ((1 << 64) - 1).to_bytes(8, "big") + _NONE + bytes(2) + bytes(4)
    octets = b"CLUBLEDG\x02\x01" + part + bytes(4)
    (folder / "ledger").write_bytes(octets + hashlib.sha256(octets).digest())
    return folder / "ledger"
