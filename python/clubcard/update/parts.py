"""Takes the parts that are missing: each by its digest, going on where it stopped, and tested by `check`."""

import hashlib
import os
import shutil
from collections.abc import Sequence
from pathlib import Path

from ..engine import Engine, EngineError
from ..http import Client, FetchError, TooLong
from ..manifest import Part
from ..placing import digest_of, new_name, remove_others, settle
from ..progress import Progress, Task
from ..telling import FULL
from .engines import told
from .faults import NotReached, Refused

SPARE = 1 << 16
"""How many bytes are left free where parts come: what is noted of the next manifest wants some."""


def take_parts(
    site: str, folder: Path, client: Client, engine: Engine, parts: Sequence[Part], progress: Progress
) -> list[Path]:
    """The files of parts, whole and tested; those of others go. What came of a part stays for the next run. Raises
    Refused and NotReached, and OSError where the folder can't be written."""
    names = [Path(part.path).name for part in parts]
    remove_others(folder, "*.part", names)
    remove_others(folder, ".*.new", [new_name(folder / name).name for name in names])
    _test_room(folder, sum(part.length for part in parts))
    files = []
    with progress.task("bytes of parts", sum(part.length for part in parts)) as task:
        for part, name in zip(parts, names):
            _take(site + part.path, folder / name, client, part, task)
            _check(engine, folder / name, part)
            files.append(folder / name)
    return files


def _test_room(folder: Path, length: int) -> None:
    """Whether the disk has room for what the folder lacks of so many bytes, and some more; where it lacks nothing, or
    the system says nothing of the disk, it has."""
    missing = length - sum(path.stat().st_size for path in folder.iterdir())
    disk = shutil.disk_usage(folder)
    if missing > 0 and disk.total and disk.free < missing + SPARE:
        raise NotReached(f"{folder}: {missing} bytes of parts are to come, and {disk.free} are free: {FULL}")


def _take(url: str, path: Path, client: Client, part: Part, task: Task) -> None:
    """Makes a file hold a part. Where bytes of an earlier run are wrong, it begins once more without them."""
    if digest_of(path) == part.sha256:
        task.advance(part.length)
        return
    new = new_name(path)
    begun = new.exists()
    if not _is_taken(url, new, client, part, task):
        new.unlink()
        if not begun or not _is_taken(url, new, client, part, task):
            new.unlink(missing_ok=True)
            raise Refused(f"{url}: its SHA-256 isn't the one that the manifest names: tell the publisher")
    os.replace(new, path)
    settle(path.parent)


def _is_taken(url: str, new: Path, client: Client, part: Part, task: Task) -> bool:
    """Brings a file to the part's length, and syncs it. Whether it has the part's digest then."""
    with open(new, "ab+") as file:
        size = file.seek(0, 2)
        task.advance(size)
        try:
            if size < part.length:
                client.get_rest(url, file, part.length, task.advance)
        except TooLong:
            return False
        except FetchError as fault:
            raise NotReached(f"{url}: {fault.why}: look at the network; the next run goes on") from fault
        file.flush()
        os.fsync(file.fileno())
        file.seek(0)
        return hashlib.file_digest(file, "sha256").digest() == part.sha256


def _check(engine: Engine, path: Path, part: Part) -> None:
    """Tests a part's bytes by the program, and that it is what the manifest says."""
    try:
        facts = engine.check(path)
    except EngineError as fault:
        raise told(fault) from fault
    if (facts.kind, facts.epoch) != (part.kind, part.epoch):
        is_it = f"is a {facts.kind} of epoch {facts.epoch}, and the manifest says a {part.kind} of {part.epoch}"
        raise Refused(f"{path}: it {is_it}: tell the publisher")
