"""Runs the program, and reads its lines and statuses (docs/FORMATS.md, "Lines and statuses")."""

import os
import subprocess
from collections.abc import Callable, Sequence
from typing import TypeVar

from .answers import Verdict
from .engine_errors import (
    BrokenChain,
    DamagedDevice,
    DiskFailed,
    EngineError,
    FullDevice,
    NoMemory,
    NoSeeds,
    PassedLimit,
    ProgramKilled,
    ProgramMissing,
    ReadFailed,
    RefusedCrl,
    UnknownAnswer,
    UnreadCertificate,
    UnreadPage,
    Untrue,
    WriteFailed,
    WrongLayout,
    WrongWords,
    error_of,
)
from .engine_lines import (
    Audited,
    Divided,
    Gathered,
    Merged,
    PartFacts,
    PartShown,
    Published,
    Rebased,
    Rehearsed,
    Sampled,
    StoreFacts,
    numbers_of,
    part_facts,
    part_shown,
    published,
    rebased,
    verdict_of,
)
from .places import By

__all__ = [
    "Audited",
    "BrokenChain",
    "By",
    "DamagedDevice",
    "DiskFailed",
    "Engine",
    "Divided",
    "EngineError",
    "FullDevice",
    "Gathered",
    "Merged",
    "NoMemory",
    "NoSeeds",
    "PartFacts",
    "PartShown",
    "PassedLimit",
    "ProgramKilled",
    "ProgramMissing",
    "Published",
    "ReadFailed",
    "Rebased",
    "RefusedCrl",
    "Rehearsed",
    "Sampled",
    "StoreFacts",
    "UnknownAnswer",
    "UnreadCertificate",
    "UnreadPage",
    "Untrue",
    "Verdict",
    "WriteFailed",
    "WrongLayout",
    "WrongWords",
]

Name = str | os.PathLike[str]
Sighting = tuple[bytes, int]
"""A log's id (32 bytes), and milliseconds since 1970."""
Read = TypeVar("Read")


class Engine:
    """The program of a name: a path where there is a slash in it, else found by PATH.

    Each call runs the program once, waits for its end, and gives what its lines say, or raises an `EngineError`. Files
    are named as the system names them; workers are 1 to 64, which change nothing of what is written.
    """

    def __init__(self, program: str = "clubcard", lent: Sequence[int] = ()) -> None:
        """`lent` are descriptors that the program keeps open: a lock's, which then holds until the program's end too,
        whoever ended this process."""
        self.program = program
        self.lent = tuple(lent)

    def snapshot(self, job: Name, part: Name, ledger: Name, workers: int) -> Published:
        """Publishes the first part of a chain, and begins its ledger."""
        return self._run(_one(published), "snapshot", job, part, ledger, workers)

    def delta(self, job: Name, ledger: Name, part: Name, new_ledger: Name, workers: int) -> Published:
        """Publishes the next part of a chain, and writes its ledger anew."""
        return self._run(_one(published), "delta", job, ledger, part, new_ledger, workers)

    def rebase(
        self, ledger: Name, moment: int, part: Name, new_ledger: Name, workers: int, without: Sequence[bytes] = ()
    ) -> Rebased:
        """Begins a chain anew, without the identities whose date is before the moment (milliseconds since 1970), and
        without these issuers (32 bytes each)."""
        if not without:
            read = _one(lambda line: rebased(line, "rebase"))
            return self._run(read, "rebase", ledger, moment, part, new_ledger, workers)
        read = _one(lambda line: rebased(line, "rebase-without"))
        named = [issuer.hex() for issuer in without]
        return self._run(read, "rebase-without", ledger, moment, part, new_ledger, workers, *named)

    def split(
        self, ledger: Name, moment: int, by: By, count: int, place: int, part: Name, new_ledger: Name, workers: int
    ) -> Rebased:
        """Begins the chain of one place of so many (1 to 65,536) anew, as `rebase` does."""
        read = _one(lambda line: rebased(line, f"split {place} of {count}"))
        return self._run(read, "split", ledger, moment, by.name.lower(), count, place, part, new_ledger, workers)

    def start(self, part: Name, store: Name) -> StoreFacts:
        """Begins a store with a snapshot."""
        return self._run(_one(_store_facts), "start", part, store)

    def install(self, store: Name, part: Name, new_store: Name) -> StoreFacts:
        """Puts the next part behind those of a store, as a new one."""
        return self._run(_one(_store_facts), "install", store, part, new_store)

    def query(self, store: Name, issuer: bytes, serial: bytes, sightings: Sequence[Sighting]) -> Verdict:
        """Asks about an identity, with 1 to 64 sightings."""
        return self._run(_one(verdict_of), "query", store, issuer.hex(), serial.hex(), *_seen(sightings))

    def query_cert(self, store: Name, certificate: Name, issuer: Name) -> Verdict:
        """Asks about a certificate by its own file and its issuer's, both in DER."""
        return self._run(_one(verdict_of), "query-cert", store, certificate, issuer)

    def check(self, part: Name) -> PartFacts:
        """Tests a part's bytes."""
        return self._run(_one(part_facts), "check", part)

    def show(self, part: Name) -> PartShown:
        """What a part holds."""
        return self._run(part_shown, "show", part)

    def rehearse(self, queries: Name, workers: int, jobs: Sequence[Name]) -> Rehearsed:
        """What would be said of the queries once these jobs (1 to 64) are published."""

        def read(lines: Sequence[str]) -> Rehearsed:
            verdicts = tuple(verdict_of(line) for line in lines[len(jobs) :])
            return Rehearsed(tuple(published(line) for line in lines[: len(jobs)]), verdicts)

        return self._run(read, "rehearse", queries, workers, *jobs)

    def audit(self, store: Name, jobs: Sequence[Name]) -> Audited:
        """Tests that a store says the truth of each entry that its jobs (1 to 64) accept; else it raises `Untrue`."""
        read = _one(lambda line: Audited(*numbers_of(line, "audit jobs # entries # agree")))
        return self._run(read, "audit", store, *jobs)

    def gather(self, head: Name, log: bytes, job: Name, pages: Sequence[Name]) -> Gathered:
        """Writes a job with a log's pages (1 to 1,024) behind the records of another one."""
        read = _one(lambda line: Gathered(*numbers_of(line, "gather pages # entries # bytes #")))
        return self._run(read, "gather", head, log.hex(), job, *pages)

    def merge(self, head: Name, job: Name, pieces: Sequence[Name]) -> Merged:
        """Writes a job with the entries of pieces (1 to 1,024) of its epoch behind the records of another one."""
        read = _one(lambda line: Merged(*numbers_of(line, "merge pieces # entries # bytes #")))
        return self._run(read, "merge", head, job, *pieces)

    def cut(self, by: str, job: Name, pieces: Sequence[Name]) -> Divided:
        """Writes what places (1 to 1,024, by `issuer` or `identity`) keep of a job, a piece each."""
        read = _one(lambda line: Divided(*numbers_of(line, "cut pieces # entries # bytes #")))
        return self._run(read, "cut", by, job, *pieces)

    def sample(self, number: int, count: int, job: Name) -> Sampled:
        """Writes the generator's job of a number, with so many entries (1 to 1,000,000)."""
        read = _one(lambda line: Sampled(*numbers_of(line, "sample # entries # revoked # bytes #")))
        return self._run(read, "sample", number, count, job)

    def place(self, by: By, issuer: bytes, serial: bytes, count: int) -> int:
        """The place of a certificate, where a history is cut into so many (1 to 65,536), from 0 on."""
        read = _one(lambda line: numbers_of(line, "place # of #")[0])
        return self._run(read, "place", by.name.lower(), issuer.hex(), serial.hex(), count)

    def device_format(self, device: Name, capacity: int, store: Name) -> StoreFacts:
        """Writes a device of a capacity (1 to 2^40 bytes) that holds a store."""
        return self._run(_one(_store_facts), "device-format", device, capacity, store)

    def device_install(self, device: Name, part: Name) -> StoreFacts:
        """Puts the next part behind those of a device's store."""
        return self._run(_one(_store_facts), "device-install", device, part)

    def device_query(self, device: Name, issuer: bytes, serial: bytes, sightings: Sequence[Sighting]) -> Verdict:
        """Asks a device's store, as `query` asks a store. The device is opened to be written, and isn't."""
        return self._run(_one(verdict_of), "device-query", device, issuer.hex(), serial.hex(), *_seen(sightings))

    def _run(self, read: Callable[[Sequence[str]], Read], command: str, *words: Name | int) -> Read:
        """What `read` makes of the lines of a command."""
        given = [str(word) if isinstance(word, int) else os.fspath(word) for word in words]
        try:
            ended = subprocess.run(
                [self.program, command, *given],
                stdin=subprocess.DEVNULL,
                capture_output=True,
                check=False,
                pass_fds=self.lent,
            )
        except OSError as error:
            raise ProgramMissing(command, f"{self.program}: {error.strerror}") from error
        except ValueError as error:
            raise WrongWords(command, "") from error
        text, errors = os.fsdecode(ended.stdout), os.fsdecode(ended.stderr)
        if ended.returncode != 0:
            raise error_of(command, ended.returncode, text.removesuffix("\n"), errors)
        try:
            return read(text.removesuffix("\n").split("\n"))
        except (ValueError, IndexError) as error:
            raise UnknownAnswer(command, " ".join(f"{text[:200]} {errors}".split())) from error


def _one(read: Callable[[str], Read]) -> Callable[[Sequence[str]], Read]:
    """What `read` makes of the only line."""

    def read_only(lines: Sequence[str]) -> Read:
        (line,) = lines
        return read(line)

    return read_only


def _seen(sightings: Sequence[Sighting]) -> list[str]:
    """The words of sightings."""
    return [word for log, time in sightings for word in (log.hex(), str(time))]


def _store_facts(line: str) -> StoreFacts:
    """The line of `start` and `install`."""
    return StoreFacts(*numbers_of(line, "store parts # epoch #"))
