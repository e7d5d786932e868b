"""The locks that keep two runs over one folder, or one file, apart."""

import contextlib
import fcntl
import os
from collections.abc import Iterator
from pathlib import Path

MODE = 0o600


class Locked(Exception):
    """Another run holds the lock."""


@contextlib.contextmanager
def locked(folder: Path) -> Iterator[int]:
    """Holds the lock of a folder, which is made, as `locked_file` does."""
    with locked_file(folder / "lock") as number:
        yield number


@contextlib.contextmanager
def locked_file(path: Path) -> Iterator[int]:
    """Holds a lock, and gives its file's number. Raises Locked where another process holds it; it ends with the last
    process that has this file open. The file stays, and its owner alone may open it: whoever may read it could hold
    the lock."""
    path.parent.mkdir(parents=True, exist_ok=True)
    number = os.open(path, os.O_RDWR | os.O_CREAT | os.O_CLOEXEC, MODE)
    try:
        # Earlier versions let everybody read it. Where it is another user's, it stays as that one has it.
        with contextlib.suppress(PermissionError):
            os.fchmod(number, MODE)
        try:
            fcntl.flock(number, fcntl.LOCK_EX | fcntl.LOCK_NB)
        except BlockingIOError:
            raise Locked(f"{path}: another run holds the lock: let it end") from None
        yield number
    finally:
        os.close(number)
