"""What is told of faults, in one line each."""

import errno
import os
from pathlib import Path

LONGEST = 1000
"""How many characters of a text are told."""
FULL = "make room on this disk"
_REMEDIES = {
    errno.ENOSPC: FULL,
    errno.EDQUOT: "make room on this disk, or raise the quota",
    errno.EROFS: "the disk can't be written: mount it so that it can",
    errno.EIO: "look at the disk: the system couldn't read or write",
    errno.EMFILE: "raise the limit of open files (ulimit -n)",
}


def one_line(text: str) -> str:
    """A text as one line of printable characters, whoever wrote it: others stand as escapes, and a long one is cut."""
    cut = text if len(text) <= LONGEST else f"{text[:LONGEST]} .."
    return "".join(each if each.isprintable() else ascii(each)[1:-1] for each in cut)


def refused_by_system(fault: OSError, place: Path, user: str) -> str:
    """What the system refused, and what to do. `place` is told where the fault names no file; `user` is who needs
    rights."""
    where = os.fsdecode(fault.filename) if isinstance(fault.filename, (str, bytes)) else str(fault.filename or place)
    remedy = _REMEDIES.get(fault.errno or 0, "look at this file and its folder")
    if fault.errno in (errno.EACCES, errno.EPERM):
        remedy = f"give {user} the right to read and write here"
    return f"{where}: {fault.strerror or fault}: {remedy}"
