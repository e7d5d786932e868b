"""Following one log: its new tree head, and the entries up to it, verified before they are kept.

How it is verified. The compact range of all entries up to `taken` is kept (RFC 6962, 2.1), of own leaf hashes; so each
entry that is taken is held against a signed tree head by its leaf's hash.

- Where the entries reach the tree head's size, the range's root is the head's. Where they don't yet (a batch ends
  before), the log's consistency proof from the range's root and size to the tree head is verified: it says that the
  leaves of the range are the first ones of the tree.
- Where the first entry that is taken isn't the log's first, the range of those before it comes from the audit path of
  that first entry: the hashes on its left are just the complete subtrees over all leaves before it, and the path is
  verified against the tree head. From there on it goes as above.
- A new tree head continues the one before. Where all entries of the one before are taken, its root was the range's, and
  what is added to the range keeps it; else (a fill that isn't at its end) the log's consistency proof between both
  heads is verified.

The extra data of an entry isn't in the tree (RFC 6962, 3.4): that the chain of an x509 entry is its own rests on the
log's word, and on the way from it (https). That of a precertificate isn't read.
"""

from collections.abc import Iterator
from contextlib import closing
from dataclasses import dataclass, replace

from ..http import FetchError
from ..progress import Progress, Task
from .heads import LogFault, TreeHead
from .merkle import CompactRange, front_of, is_consistent, leaf_hash
from .paging import Pages
from .sources import RawEntry, Source
from .spool import Batch, LogRow, save_log
from .state import State

MOST_AHEAD = 60_000
"""By how many milliseconds a tree head may be ahead of the run's moment."""
MOST_OCTETS = 64 << 20
"""A batch ends where its records have so many bytes."""
MOST_ENTRIES = 32_768
"""A batch ends where it has so many entries."""


@dataclass
class Follower:
    """One log in one run. `row` is what is known of it, and moves on with each step that is kept."""

    state: State
    row: LogRow
    source: Source
    pages: Pages
    progress: Progress

    def follow(self, moment: int) -> str | None:
        """Takes what is new. Raises LogFault and FetchError where the log fails; what was kept before stays. Gives why
        there is more to take, where there is."""
        answered = self.source.head()
        head = newest(self.row.head, answered, moment)
        if head is not self.row.head:
            self._continue(head)
        if head.size <= self.row.taken:
            self._keep_head(head)
            return None
        return self._take(head)

    def _take(self, head: TreeHead) -> str | None:
        """Takes the entries up to a tree head; gives why there is more to take, where there is."""
        start, end = self.row.taken, head.size
        with (
            self.progress.task(self.row.name, end - start) as task,
            closing(self.pages.read(self.source, start, end, end)) as pages,
        ):
            while self.row.taken < end:
                if not self.pages.has_time():
                    return f"{end - self.row.taken} entries are left for the next run"
                self._take_batch(head, pages, task)
        return None

    def _continue(self, head: TreeHead) -> None:
        """Verifies that a new tree head continues the one before, where own entries won't say it."""
        before, front = self.row.head, self.row.front
        if before is None or before.size in (0, head.size) or (front is not None and front.size == before.size):
            return
        proof = self.source.consistency(before.size, head.size)
        if not is_consistent(before.size, before.root, head.size, head.root, proof):
            raise LogFault(f"its tree head of {head.size} entries doesn't continue the one of {before.size}")

    def _keep_head(self, head: TreeHead) -> None:
        """Keeps a tree head that brings no entries to take."""
        front = self.row.front
        if front is not None and front.size == head.size and front.root() != head.root:
            raise LogFault(f"its tree head of {head.size} entries has another root than its entries")
        row = with_head(self.row, head)
        if row != self.row:
            with self.state.transaction() as db:
                save_log(db, row)
            self.row = row

    def _take_batch(self, head: TreeHead, pages: Iterator[list[RawEntry]], task: Task) -> None:
        """Takes the next pages, verifies that they are the tree's, and keeps them. Where the log fails behind some,
        these are kept before its fault is raised."""
        front = self._front(head)
        batch = Batch(self.state, self.row, head.time)
        try:
            fault = self._fill(batch, front, pages)
            if front.size == self.row.taken:
                raise fault or LogFault("no entries came")
            self._verify(front, head)
        except BaseException:
            batch.drop()
            raise
        row = replace(self.row, taken=front.size, latest=batch.latest, front=front, first_time=batch.first_time)
        row = with_head(row, head)
        batch.commit(row)
        task.advance(row.taken - self.row.taken)
        self.row = row
        if fault is not None:
            raise fault

    def _fill(self, batch: Batch, front: CompactRange, pages: Iterator[list[RawEntry]]) -> LogFault | FetchError | None:
        """Puts pages into a batch until it is full, and gives the fault of the log that ends it before."""
        try:
            for page in pages:
                front.extend([leaf_hash(entry.leaf) for entry in page])
                batch.add(page)
                is_full = batch.length >= MOST_OCTETS or front.size - self.row.taken >= MOST_ENTRIES
                if is_full or not self.pages.has_time():
                    break
        except (LogFault, FetchError) as fault:
            return fault
        return None

    def _front(self, head: TreeHead) -> CompactRange:
        """The compact range of the entries before the next one; of those that aren't taken by an audit path."""
        if self.row.front is not None:
            return self.row.front.copy()
        first = self.row.taken
        leaf = leaf_hash(self.source.entries(first, first + 1, head.size)[0].leaf)
        front = front_of(leaf, first, head.size, self.source.path(leaf, first, head.size), head.root)
        if front is None:
            raise LogFault(f"the audit path of entry {first} isn't one of its tree head of {head.size} entries")
        return front

    def _verify(self, front: CompactRange, head: TreeHead) -> None:
        """Verifies that the entries so far are the first ones of a tree."""
        if front.size == head.size:
            good = front.root() == head.root
        else:
            proof = self.source.consistency(front.size, head.size)
            good = is_consistent(front.size, front.root(), head.size, head.root, proof)
        if not good:
            raise LogFault(f"its entries up to {front.size} aren't those of its tree head of {head.size} entries")


def newest(known: TreeHead | None, answered: TreeHead, moment: int) -> TreeHead:
    """The tree head to go to: what a log answered, or the known one (itself) where the answer is the same or older.
    Raises LogFault where the answer is ahead of the moment, or can't continue the known one."""
    if known is not None and (answered.time < known.time or answered == known):
        return known
    if answered.time > moment + MOST_AHEAD:
        raise LogFault(f"its tree head is {(answered.time - moment) // 1000} s ahead of this run's moment")
    if known is None:
        return answered
    if answered.time == known.time:
        raise LogFault(f"it has two tree heads of the time {known.time}")
    if answered.size < known.size:
        raise LogFault(f"its tree head of {answered.size} entries is newer than the one of {known.size}")
    if answered.size == known.size and answered.root != known.root:
        raise LogFault(f"it has two trees of {known.size} entries")
    return answered


def with_head(row: LogRow, head: TreeHead) -> LogRow:
    """What is known of a log with a verified tree head, and what that says of the entries below `first`."""
    if row.first == 0:
        return replace(row, head=head)
    times = [row.bound_head, head.time if head.size >= row.first else None]
    row = replace(row, head=head, bound_head=min((time for time in times if time is not None), default=None))
    return replace(row, bound=row.bounded(row.mmd))
