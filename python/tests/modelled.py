"""What the rules come to, by plain loops over all entries of a small world: written from the rules, and not from the
queries that the publisher chooses by. Parts, identities and entries are held against the state and its ledger."""

from collections.abc import Mapping, Sequence
from dataclasses import dataclass, field

from clubcard.publish import chain
from made import second_program
from spooled import MMD, Seen, Spooled, key_of, log_of, reference

files = second_program("reference_files")
Identity = tuple[int, bytes]
Ranges = Mapping[int, tuple[int, int]]


def covers(ranges: Ranges, entry: Seen) -> bool:
    return entry.log in ranges and ranges[entry.log][0] <= entry.time <= ranges[entry.log][1]


@dataclass(frozen=True)
class Part:
    epoch: int
    ranges: Ranges
    issuers: frozenset[int]


@dataclass
class Item:
    """An identity: the place of the part that bore it, its date, and whether it is revoked."""

    birth: int
    until: int | None
    revoked: bool = False


@dataclass
class Model:
    """A chain, and what is accepted and waits, by the rules."""

    rebase_after: int
    patience: int
    max_away: int
    grace: int
    parts: list[Part] = field(default_factory=list)
    items: dict[Identity, Item] = field(default_factory=dict)
    waiting: list[Seen] = field(default_factory=list)
    accepted: list[Seen] = field(default_factory=list)
    enrolled_at: dict[int, int] = field(default_factory=dict)
    held: int = 0
    generation: int = 1
    late: int = 0
    heads: list[int] = field(default_factory=list)

    def cut(self, moment: int) -> int:
        return max(0, min(moment, max(self.heads, default=0)) - self.grace)

    def is_late(self, entry: Seen) -> bool:
        """Some part covers it, with its issuer, before its identity was born in the chain."""
        known = self.items.get(entry.identity)
        before = self.parts if known is None else self.parts[: known.birth]
        return any(covers(part.ranges, entry) and entry.issuer in part.issuers for part in before)

    def is_over(self, until: int | None, cut: int) -> bool:
        return until is not None and until * 1000 < cut

    def epoch(self, moment: int, ranges: Ranges, lists: Mapping[int, Sequence[bytes]], named: Sequence[int]) -> None:
        """An epoch that covers these ranges, and enrols issuers whose CRLs list these serials."""
        cut = self.cut(moment)
        self.waiting = [entry for entry in self.waiting if not self.is_over(entry.until, cut)]
        wanted = [entry for entry in self.waiting if covers(ranges, entry) and entry.issuer in lists]
        late = [entry for entry in wanted if self.is_late(entry)]
        shown = [entry for entry in wanted if entry not in late]
        number = self.parts[-1].epoch + 1 if self.parts else 1
        for entry in shown:
            item = self.items.setdefault(entry.identity, Item(len(self.parts), entry.until))
            known = item.until is not None and entry.until is not None
            item.until = max(item.until, entry.until) if known else None  # type: ignore[type-var]
        for (issuer, serial), item in self.items.items():
            item.revoked |= serial in lists.get(issuer, ())
        self.parts.append(Part(number, dict(ranges), frozenset(lists)))
        self.accepted += shown
        self.waiting = [entry for entry in self.waiting if entry not in shown]
        self.enrolled_at |= {issuer: moment for issuer in lists}
        self.late = len(late)
        self.rebase(moment, named)

    def holding(self, cut: int) -> set[int]:
        """The issuers whose waiting entries would be late for ever in a new chain, and aren't so already."""
        issuers = {issuer for part in self.parts for issuer in part.issuers}
        kept = {identity for identity, item in self.items.items() if not self.is_over(item.until, cut)}
        return {
            entry.issuer
            for entry in self.waiting
            if covers(self.parts[-1].ranges, entry) and entry.issuer in issuers and entry.identity not in kept
            if not self.is_over(entry.until, cut) and not self.is_late(entry)
        }

    def rebase(self, moment: int, named: Sequence[int]) -> None:
        """The step behind an epoch."""
        if len(self.parts) < self.rebase_after:
            return
        cut = self.cut(moment)
        holding = self.holding(cut)
        self.held = self.held + 1 if holding else 0
        waited_for = [i for i in holding if i in named and moment - self.enrolled_at[i] <= self.max_away]
        if waited_for and self.held < self.patience:
            return
        self.items = {
            identity: Item(0, item.until, item.revoked)
            for identity, item in self.items.items()
            if identity[0] not in holding and not self.is_over(item.until, cut)
        }
        again = [entry for entry in self.accepted if entry.issuer in holding]
        self.accepted = [entry for entry in self.accepted if entry.identity in self.items]
        self.waiting = [entry for entry in self.waiting + again if not self.is_over(entry.until, cut)]
        issuers = {issuer for part in self.parts for issuer in part.issuers} - holding
        self.parts = [Part(self.parts[-1].epoch, self.parts[-1].ranges, frozenset(issuers))]
        self.generation, self.held = self.generation + 1, 0

    # ---------- the state beside it ----------
    def compare(self, world: Spooled) -> None:
        """The state, and the ledger that the program wrote, are as the model says."""
        release = chain.release(world.state)
        assert release is not None
        assert release.generation == self.generation
        assert {len(each.parts) for each in release.chains} == {len(self.parts)}
        query = """SELECT l.key, e.time, i.key, e.serial, e.until, e.epoch IS NOT NULL FROM entry e
            JOIN log l ON l.id = e.log JOIN issuer i ON i.id = e.issuer WHERE e.aside IS NULL"""
        rows = sorted(world.state.db.execute(query).fetchall(), key=repr)
        mine = [(self.accepted, 1), (self.waiting, 0)]
        told = [
            (log_of(entry.log), entry.time, key_of(entry.issuer), entry.serial, entry.until, is_accepted)
            for entries, is_accepted in mine
            for entry in entries
        ]
        assert rows == sorted(told, key=repr)
        self.compare_ledger(world)
        row = release.row
        assert (row.late, row.waiting, row.universe) == (self.late, len(self.waiting), len(self.items))
        assert row.revoked == sum(item.revoked for item in self.items.values())

    def compare_ledger(self, world: Spooled) -> None:
        newest = chain.newest(world.state)
        assert newest is not None
        ledgers = [files.read_ledger(held.ledger.read_bytes()) for held in newest.places.values()]
        for place, part in enumerate(self.parts):
            held = [ledger.parts[place] for ledger in ledgers]
            assert {each.epoch for each in held} == {part.epoch} and all(
                len(e.parts) == len(self.parts) for e in ledgers
            )
            assert {issuer for each in held for issuer in each.issuers} == {key_of(issuer) for issuer in part.issuers}
            ranges = sorted((log_of(log), *covered) for log, covered in part.ranges.items())
            assert all(each.ranges == ranges for each in held)
        items = {
            reference.ident(key_of(issuer), serial): (item.birth, item.until, item.revoked)
            for (issuer, serial), item in self.items.items()
        }
        kept = [item for ledger in ledgers for item in ledger.items]
        assert len(kept) == len(items)
        assert {i.identity: (i.birth, i.until, i.last is not None) for i in kept} == items
        rows = world.state.db.execute(
            "SELECT i.key, serial, birth, until, revoked IS NOT NULL FROM identity k JOIN issuer i ON i.id = k.issuer"
        )
        places = [part.epoch for part in self.parts]
        state = {
            reference.ident(key, serial): (sum(epoch < birth for epoch in places), until, bool(revoked))
            for key, serial, birth, until, revoked in rows
        }
        assert state == items

    def owed(self, tree: Sequence[tuple[int, Seen]], moment: int) -> list[Seen]:
        """What a client may ask about at will: a part covers the entry, with its issuer. Each is of an identity that
        the chain holds, and isn't late, but for what expired and what its log merged behind its delay (`tree`: when
        each was merged, and the entry)."""
        cut, out = self.cut(moment), []
        for merged, entry in tree:
            asked = any(covers(part.ranges, entry) and entry.issuer in part.issuers for part in self.parts)
            if asked and not self.is_over(entry.until, cut) and merged <= entry.time + MMD:
                out.append(entry)
        return out
