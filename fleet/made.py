"""What tasks make. Each file is written under a name of the task's own and put in place whole; one that is there stays.

A task that was given up may live on, on a node that nobody reaches, and end beside another run of it or behind it. Both
make the same bytes: else the later one fails, and changes nothing. Behind its files a task puts a record (`.made`): the
digests of them and of the files of which they were made, by which all are compared before they are used or published.
"""

import json
import os
import secrets
from collections.abc import Iterable, Mapping
from dataclasses import asdict, dataclass
from pathlib import Path
from typing import Any

from clubcard.placing import digest_of, new_name, sync


class Differs(Exception):
    """A file hasn't the bytes that it must have; the text names it."""


@dataclass(frozen=True)
class File:
    """The SHA-256 of a file in hexadecimal, and its size."""

    sha256: str
    size: int


@dataclass(frozen=True)
class Record:
    """The files that a task made, what the program said of them, and the SHA-256 of each file of which they were made,
    in hexadecimal."""

    files: Mapping[str, File]
    said: Mapping[str, Any]
    of: Mapping[str, str]


def own_name(path: Path) -> Path:
    """Where a task writes a file before it is put in place: a name that no other one has."""
    return new_name(path.with_name(f"{path.name}.{secrets.token_hex(8)}"))


def record_name(name: str) -> Path:
    """Where a record stands."""
    return Path(f"{name}.made")


def put(own: Path, path: Path) -> str:
    """Puts a file in place, once it is on the disk; its SHA-256. Raises Differs where another one is there."""
    sync(own)
    made = _digest(own)
    while not _linked(own, path):
        there = digest_of(path)
        if there is not None and there.hex() != made:
            own.unlink()
            raise Differs(f"{path}: it is there with other bytes: SHA-256 {there.hex()} in place of {made}")
        if there is not None:
            break
    own.unlink()
    sync(path.parent)
    return made


def _linked(own: Path, path: Path) -> bool:
    """Gives a file its name, where no file has it."""
    try:
        os.link(own, path)
    except FileExistsError:
        return False
    return True


def put_text(text: str, path: Path) -> None:
    """Puts a text in place as a file."""
    own = own_name(path)
    own.write_text(text, encoding="utf-8")
    put(own, path)


def put_made(name: str, owns: Mapping[str, Path], said: Mapping[str, Any], of: Mapping[str, str]) -> None:
    """Puts files in place, each from its own name, and then their record."""
    files = {}
    for path, own in owns.items():
        size = own.stat().st_size
        files[path] = File(put(own, Path(path)), size)
    record = asdict(Record(files, said, of))
    put_text(json.dumps(record, indent=1, sort_keys=True) + "\n", record_name(name))


def record_of(name: str) -> Record:
    """A record by its name."""
    fields = json.loads(record_name(name).read_text(encoding="utf-8"))
    fields["files"] = {path: File(**file) for path, file in fields["files"].items()}
    return Record(**fields)


def made_in(records: Iterable[Record]) -> dict[str, File]:
    """All files of records."""
    return {path: file for record in records for path, file in record.files.items()}


def compared(paths: Iterable[str], files: Mapping[str, File]) -> dict[str, str]:
    """The SHA-256 of each of some files, which is the one that is told. Raises Differs where it isn't."""
    found = {}
    for path in paths:
        found[path] = _digest(Path(path))
        if found[path] != files[path].sha256:
            raise Differs(f"{path}: its SHA-256 is {found[path]}, and its record has {files[path].sha256}")
    return found


def _digest(path: Path) -> str:
    digest = digest_of(path)
    if digest is None:
        raise Differs(f"{path}: it isn't there any more")
    return digest.hex()
