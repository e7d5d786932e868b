"""A program that takes less: jobs of few entries."""

from pathlib import Path

from clubcard.engine import Engine, Name, Published
from clubcard.engine_errors import PassedLimit

from .site import PROGRAM


def entries_of(job: Path) -> int:
    """How many entries a job has (docs/FORMATS.md, "Job")."""
    octets, at, count = job.read_bytes(), 24, 0
    while octets[at]:
        if octets[at] == 1:
            at += 49
        elif octets[at] == 2:
            at += 37 + int.from_bytes(octets[at + 33 : at + 37], "big")
        else:
            leaf = at + 36 + int.from_bytes(octets[at + 33 : at + 36], "big")
            at, count = leaf + 3 + int.from_bytes(octets[leaf : leaf + 3], "big"), count + 1
    return count


class Limited(Engine):
    """Refuses a job of more than `most` entries as the program does where its own limit is passed."""

    def __init__(self, most: int) -> None:
        super().__init__(str(PROGRAM))
        self.most = most

    def _test(self, command: str, job: Name) -> None:
        if entries_of(Path(job)) > self.most:
            raise PassedLimit(command, f"limit entries {self.most} {job}")

    def snapshot(self, job: Name, part: Name, ledger: Name, workers: int) -> Published:
        self._test("snapshot", job)
        return super().snapshot(job, part, ledger, workers)

    def delta(self, job: Name, ledger: Name, part: Name, new_ledger: Name, workers: int) -> Published:
        self._test("delta", job)
        return super().delta(job, ledger, part, new_ledger, workers)
