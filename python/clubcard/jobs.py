"""Writing a job (docs/FORMATS.md, "Job"), record by record."""

import errno
import os
from types import TracebackType
from typing import BinaryIO

MAGIC = b"CLUBJOB1"
MOST_RANGES = 1024
MOST_CRLS = 65535
MOST_ENTRIES = 4194304
LONGEST_CRL = 67108864
_END, _RANGE, _CRL, _ENTRY = (bytes([kind]) for kind in range(4))
_LONGEST = (1 << 24) - 1
_PIECE = 1 << 20
# From how many bytes on the system copies them.
_LARGE = 1 << 16
# Why the system doesn't copy from one file to another: it can't between these, or not at all.
_NOT_COPIED = {errno.EXDEV, errno.EINVAL, errno.ENOSYS, errno.EOPNOTSUPP, errno.EPERM, errno.ETXTBSY}


def _number(value: int, what: str) -> bytes:
    """A number of 64 bits."""
    if not 0 <= value < 1 << 64:
        raise ValueError(f"{what} {value} isn't a number of 64 bits")
    return value.to_bytes(8, "big")


def _key(key: bytes, what: str) -> bytes:
    """A key, of 32 bytes."""
    if len(key) != 32:
        raise ValueError(f"{what} has {len(key)} bytes in place of 32")
    return key


def entry_record(log: bytes, leaf: bytes, extra: bytes) -> bytes:
    """The record of a log's entry: the log's id (32 bytes), its leaf and its extra data in binary, each of at most
    16,777,215 bytes. Else it is a ValueError."""
    if len(leaf) > _LONGEST or len(extra) > _LONGEST:
        raise ValueError(f"a leaf of {len(leaf)} bytes and extra data of {len(extra)}: each has {_LONGEST} at most")
    return b"".join(
        (_ENTRY, _key(log, "a log's id"), len(leaf).to_bytes(3, "big"), leaf, len(extra).to_bytes(3, "big"), extra)
    )


class JobWriter:
    """Writes a job to a binary file that is open, in the order of its records: the header, ranges by ascending log,
    CRLs, entries.

    Another order, and more ranges or CRLs than a job has, is a ValueError. `end` writes the end; leaving the context
    without a fault does so too. How many entries and serials there are is the program's to test.
    """

    def __init__(self, file: BinaryIO) -> None:
        self._file = file
        # The kind of the newest record; the header comes before all, and the end behind all.
        self._kind = 0
        self._ended = False
        self._log = b""
        self._ranges = 0
        self._crls = 0
        self.size = 0

    def __enter__(self) -> "JobWriter":
        return self

    def __exit__(
        self, kind: type[BaseException] | None, value: BaseException | None, trace: TracebackType | None
    ) -> None:
        if kind is None and not self._ended:
            self.end()

    def header(self, epoch: int, moment: int) -> None:
        """Begins the job of an epoch, with its moment in milliseconds since 1970."""
        if self.size:
            raise ValueError("a job has one header")
        self._write(MAGIC, _number(epoch, "an epoch"), _number(moment, "a moment"))

    def range(self, log: bytes, low: int, high: int) -> None:
        """What the job covers of a log (32 bytes): from and to, both included, in milliseconds since 1970."""
        self._begin(1)
        if log <= self._log or low > high or self._ranges == MOST_RANGES:
            raise ValueError(f"ranges ascend by log, don't end before they begin, and are {MOST_RANGES} at most")
        self._log, self._ranges = _key(log, "a log's id"), self._ranges + 1
        self._write(_RANGE, log, _number(low, "a range from"), _number(high, "a range to"))

    def crl(self, issuer: bytes, der: bytes) -> None:
        """A CRL in DER, of an issuer (32 bytes)."""
        self._begin(2)
        if len(der) > LONGEST_CRL or self._crls == MOST_CRLS:
            raise ValueError(f"CRLs have {LONGEST_CRL} bytes at most, and are {MOST_CRLS} at most")
        self._crls += 1
        self._write(_CRL, _key(issuer, "an issuer"), len(der).to_bytes(4, "big"), der)

    def entry(self, log: bytes, leaf: bytes, extra: bytes) -> None:
        """A log's entry."""
        self._begin(3)
        self._write(entry_record(log, leaf, extra))

    def raw(self, octets: bytes) -> None:
        """Records of entries as they stand, whole ones, as `entry_record` makes them."""
        self._begin(3)
        self._write(octets)

    def copy(self, source: int, start: int, end: int) -> None:
        """Records of entries as they stand in a file that is open (its descriptor), whole ones, from one offset to
        another. Where that file ends before, it is an EOFError."""
        self._begin(3)
        if end - start >= _LARGE:
            start = self._copied(source, start, end)
        while start < end:
            piece = os.pread(source, min(_PIECE, end - start), start)
            if not piece:
                raise EOFError(f"a file ends at {start}, and records are to be copied up to {end}")
            self._write(piece)
            start += len(piece)

    def _copied(self, source: int, start: int, end: int) -> int:
        """Lets the system copy, which is twice as fast; up to which offset it did."""
        try:
            self._file.flush()
            target = self._file.fileno()
            while start < end and (count := os.copy_file_range(source, target, end - start, start)):
                start, self.size = start + count, self.size + count
        except OSError as error:
            if error.errno is not None and error.errno not in _NOT_COPIED:
                raise
        return start

    def end(self) -> None:
        """Writes the end, once."""
        self._begin(3)
        self._ended = True
        self._write(_END)

    def _begin(self, kind: int) -> None:
        """Tests that a record of this kind may come now."""
        if not self.size or self._ended or kind < self._kind:
            raise ValueError("a job is a header, ranges, CRLs, entries and an end, in this order")
        self._kind = kind

    def _write(self, *pieces: bytes) -> None:
        """Writes pieces, and counts their bytes."""
        for piece in pieces:
            self._file.write(piece)
            self.size += len(piece)
