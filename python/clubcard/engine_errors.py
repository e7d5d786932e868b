"""Why the program gave no answer: an exception for each of its statuses (docs/FORMATS.md, "Lines and statuses").

Each is made of the command and the program's line, and reads its fields from that.
"""

import re
from typing import ClassVar


class EngineError(Exception):
    """The program gave no answer.

    command: the program's word; status: that of the program; line: what it printed, without its end; remedy: what to
    do. As text it says all of them. A line that isn't one of this status is a ValueError.
    """

    status: ClassVar[int]
    form: ClassVar[str]
    remedy: str

    def __init__(self, command: str, line: str) -> None:
        super().__init__(command, line)
        found = re.fullmatch(self.form, line, re.DOTALL)
        if found is None:
            raise ValueError(f"status {self.status} has another line than this: {line}")
        self.command = command
        self.line = line
        self.words: tuple[str, ...] = found.groups()

    def __str__(self) -> str:
        return f"clubcard {self.command}: {self.line or 'no line'} (status {self.status}): {self.remedy}"


class WrongWords(EngineError):
    """The words are no command."""

    status = 2
    form = r"usage|"
    remedy = 'a word isn\'t as it must be, or this program is an older one: docs/FORMATS.md, "Words"'


class WrongLayout(EngineError):
    """A field of a file is short or fails its test: the offset of its first byte, its name, `short`, `value` or
    `digest`, and the file's name."""

    status = 3
    form = r"layout (\d+) (\S+) (short|value|digest) (.+)"
    remedy = "the named file is damaged or of another kind: fetch it or make it again"

    def __init__(self, command: str, line: str) -> None:
        super().__init__(command, line)
        at, self.field, self.why, self.name = self.words
        self.at = int(at)


class RefusedCrl(EngineError):
    """A CRL of a job isn't accepted: the place of the first one, from 0 among the CRLs of the job, the fault
    (`malformed`, `delta`, `indirect` or `critical`), and the job's name."""

    status = 4
    form = r"crl (\d+) (malformed|delta|indirect|critical) (.+)"
    remedy = "get the authority's full and direct CRL, or leave the issuer out of this job"

    def __init__(self, command: str, line: str) -> None:
        super().__init__(command, line)
        record, self.fault, self.name = self.words
        self.record = int(record)


class BrokenChain(EngineError):
    """A part or a job doesn't go on with the chain: why (`not-snapshot`, `not-delta`, `parent`, `epoch`, `coverage` or
    `full`), its details (what is held and what was given, or the log), and the file's name."""

    status = 5
    form = r"chain (?:(not-snapshot|not-delta|full)|(parent|epoch) (\S+ \S+)|(coverage) (\S+)) (.+)"
    remedy = "install every part in order; give a job a greater epoch, and ranges that hold the earlier ones"

    def __init__(self, command: str, line: str) -> None:
        super().__init__(command, line)
        alone, pair, given, coverage, log, self.name = self.words
        self.why = alone or pair or coverage
        self.details = tuple((given or log or "").split())
        if self.why == "full":
            self.remedy = "the chain has 64 parts: begin it anew by rebase"


class PassedLimit(EngineError):
    """There is more than the limit of `ranges`, `crls`, `serials`, `entries`, `identities` or `issuers`: what, the
    limit, and the file's name."""

    status = 6
    form = r"limit (ranges|crls|serials|entries|identities|issuers) (\d+) (.+)"
    remedy = "make the job smaller; of identities, begin the chain anew by rebase"

    def __init__(self, command: str, line: str) -> None:
        super().__init__(command, line)
        self.what, limit, self.name = self.words
        self.limit = int(limit)


class NoSeeds(EngineError):
    """The equations of an issuer's stage (1 approximate, 2 exact) are unsolvable at each seed: issuer (32 bytes)."""

    status = 7
    form = r"seeds ([0-9a-f]{64}) ([12])"
    remedy = "leave the issuer out of this job, and report it"

    def __init__(self, command: str, line: str) -> None:
        super().__init__(command, line)
        issuer, stage = self.words
        self.issuer = bytes.fromhex(issuer)
        self.stage = int(stage)


class Named(EngineError):
    """One with a file's name, and nothing else."""

    def __init__(self, command: str, line: str) -> None:
        super().__init__(command, line)
        (self.name,) = self.words


class ReadFailed(Named):
    """A read failed, or there is no file of this name."""

    status = 8
    form = r"read-fault (.+)"
    remedy = "look at the named file's name and rights"


class WriteFailed(EngineError):
    """Writing a file failed, or printing the lines, where `name` is None."""

    status = 9
    form = r"write-fault (.+)|.*"
    remedy = "look at the disk's room and the folder's rights, and run it again"

    def __init__(self, command: str, line: str) -> None:
        super().__init__(command, line)
        self.name: str | None = self.words[0]


class UnreadCertificate(EngineError):
    """A certificate or its timestamps aren't read: `malformed`, `no-scts`, `scts` or `many`, and the file's name."""

    status = 12
    form = r"cert (malformed|no-scts|scts|many) (.+)"
    remedy = "give a certificate in DER; without timestamps, ask by serial, logs and times"

    def __init__(self, command: str, line: str) -> None:
        super().__init__(command, line)
        self.fault, self.name = self.words


class DiskFailed(Named):
    """A disk failed: a read, a write or a sync."""

    status = 13
    form = r"disk-fault (.+)"
    remedy = "see whether the device is there and its disk works"


class DamagedDevice(EngineError):
    """A field of a device is short or fails its test: the offset of its first byte, and the device's name."""

    status = 14
    form = r"device (\d+) (.+)"
    remedy = "format the device again"

    def __init__(self, command: str, line: str) -> None:
        super().__init__(command, line)
        at, self.name = self.words
        self.at = int(at)


class FullDevice(EngineError):
    """There are more bytes than a slot holds: its capacity in bytes, and the device's name."""

    status = 15
    form = r"device-full (\d+) (.+)"
    remedy = "format the device again with a greater capacity"

    def __init__(self, command: str, line: str) -> None:
        super().__init__(command, line)
        capacity, self.name = self.words
        self.capacity = int(capacity)


class UnreadPage(EngineError):
    """A page of a log isn't read: the item's index, `json`, `shape`, `base64` or `size`, and the file's name."""

    status = 16
    form = r"page (\d+) (json|shape|base64|size) (.+)"
    remedy = "fetch the log's page again"

    def __init__(self, command: str, line: str) -> None:
        super().__init__(command, line)
        index, self.why, self.name = self.words
        self.index = int(index)


class Untrue(EngineError):
    """The store says `held` of an entry that a job accepts, where `truth` is right: the places of the job and of its
    entry, from 0."""

    status = 17
    form = r"audit job (\d+) entry (\d+) held (\S+) truth (\S+)"
    remedy = "don't use the store: it is wrong, or older than the jobs"

    def __init__(self, command: str, line: str) -> None:
        super().__init__(command, line)
        job, entry, self.held, self.truth = self.words
        self.job = int(job)
        self.entry = int(entry)


class NoMemory(EngineError):
    """Memory was wanted."""

    status = 70
    form = r".*"
    remedy = "give the program more memory"


class ProgramMissing(EngineError):
    """There is no such program, or it can't be run. The line is the system's."""

    status = 127
    form = r".*"
    remedy = "name the program by its path, or install it on PATH"


class ProgramKilled(EngineError):
    """A signal ended the program: its number. The line is `signal NUMBER`."""

    status = 128
    form = r"signal (\d+)"
    remedy = "run it again; signal 9 often says that the system had too little memory"

    def __init__(self, command: str, line: str) -> None:
        super().__init__(command, line)
        self.signal = int(self.words[0])


class UnknownAnswer(EngineError):
    """The line isn't one of the program's own for its status: it is another program, or another version of it."""

    status = 1
    form = r".*"
    remedy = "see that this is the program of this version"


_OF_STATUS: dict[int, type[EngineError]] = {
    kind.status: kind
    for kind in (
        WrongWords,
        WrongLayout,
        RefusedCrl,
        BrokenChain,
        PassedLimit,
        NoSeeds,
        ReadFailed,
        WriteFailed,
        UnreadCertificate,
        DiskFailed,
        DamagedDevice,
        FullDevice,
        UnreadPage,
        Untrue,
        NoMemory,
    )
}


def error_of(command: str, status: int, line: str, errors: str) -> EngineError:
    """What a command's end with a status other than 0 means. A status below 0 is a signal's. `errors` is what stood on
    standard error, which is told where the line says nothing."""
    if status < 0:
        return ProgramKilled(command, f"signal {-status}")
    try:
        return _OF_STATUS[status](command, line)
    except (KeyError, ValueError):
        told = " ".join(f"{line} {errors}".split())
        return UnknownAnswer(command, f"{told} (the program's status is {status})")
