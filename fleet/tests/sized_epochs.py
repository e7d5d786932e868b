"""Five epochs of issuers of very different sizes: their pages, CRLs and EPOCH, and the truth of the whole.

A certificate is a number, of whose digest all else comes. The truth is worked out over numbers, by its definition: the
program, its files and tools/reference.py have no part in it.
"""

from bisect import bisect_right
from collections import Counter
from collections.abc import Iterable, Iterator
from dataclasses import dataclass
from hashlib import sha256
from pathlib import Path
from typing import Any, NamedTuple

from reference import Crl, Entry
from reference import History as Whole
from reference import Job, T, issuer_place

from .made_epochs import FAULTY, LOGS, World, page_of

EPOCHS = (1, 2, 3, 4, 5)
REBASED, SPLIT = 4, 5
"""In which epoch all chains are rebased, and in which those of the large place are split."""
ISSUERS = [sha256(b"sized issuer %d" % each).digest() for each in range(40)]
COUNT, AGAIN = 16, 4
LARGE = f"{issuer_place(ISSUERS[0], COUNT):04}"
"""The place that is cut again, and into twice as many from SPLIT on."""
SPAN = 1 << 30
"""For how many milliseconds an epoch's certificates come."""
_BOUNDS = [int((1 - 0.7**each) * (1 << 32)) for each in range(1, len(ISSUERS))]
"""Each issuer has 0.7 of what the one before it has."""
_REVOKED = (10, 1, 30, 0, 200, 10, 2, 1000)
"""How many certificates of a thousand each issuer revokes, in turns of eight."""


class Certificate(NamedTuple):
    """The place of its issuer, its serial, and octets that decide about it."""

    issuer: int
    serial: bytes
    chance: bytes


class Shown(NamedTuple):
    """An entry: its certificate's number (None: it can't be read), the place of its log, and its time."""

    number: int | None
    log: int
    time: int


def certificate(number: int) -> Certificate:
    digest = sha256(b"certificate %d" % number).digest()
    return Certificate(bisect_right(_BOUNDS, int.from_bytes(digest[:4], "big")), b"\1" + digest[4:19], digest[19:])


def is_enrolled(issuer: int, epoch: int) -> bool:
    """Whether an issuer's CRL is there, and hasn't expired."""
    return (issuer, epoch) not in {(5, 1), (6, 2)}


def is_listed(found: Certificate, epoch: int) -> bool:
    """Whether a CRL of an epoch lists a certificate. A quarter of those that are listed are dropped later."""
    share = _REVOKED[found.issuer % len(_REVOKED)]
    if share == 1000:
        return True
    first = 1 + found.chance[2] % len(EPOCHS)
    is_revoked = int.from_bytes(found.chance[:2], "big") % 1000 < share
    return is_revoked and (epoch == first or (epoch > first and found.chance[3] % 4 > 0))


@dataclass(frozen=True)
class History:
    """All epochs with so many certificates, half of which come in the first, and the others in equal parts."""

    certificates: int
    step: int = 1
    """Where it is a sample: one certificate of so many has entries. The truth of each is its own."""

    def sample(self, most: int) -> "History":
        """At most so many certificates, with all CRLs."""
        return History(self.certificates, -(-self.certificates // most))

    def born(self, epoch: int) -> range:
        """The numbers that come in an epoch."""
        later = len(EPOCHS) - 1
        ends = [0, *(self.certificates * (later + each) // (2 * later) for each in range(len(EPOCHS)))]
        return range(ends[epoch - 1], ends[epoch], self.step) if epoch else range(0)

    def shown(self, epoch: int) -> Iterator[Shown]:
        """The entries of an epoch. One certificate of 256 is shown too late, and one has a time that isn't covered yet;
        16 are shown again, half by both logs. One entry of a thousand can't be read."""
        for number in self.born(epoch):
            chance, time = certificate(number).chance[4], T + (epoch - 1) * SPAN + number
            if number % 1000 == 7:
                yield Shown(None, 0, time)
            if chance > 0:
                yield Shown(number, 0, time + SPAN if chance == 1 else time)
            if chance % 2 == 0 and chance > 0:
                yield Shown(number, 1, time)
        for number in self.born(epoch - 1):
            chance, time = certificate(number).chance[4], T + (epoch - 2) * SPAN + number
            if chance < 16:
                yield Shown(number, 0, time + SPAN if chance == 1 else time)

    def entry(self, shown: Shown) -> Any:
        """An entry of tools/reference.py."""
        if shown.number is None:
            return Entry(None, None, LOGS[shown.log], shown.time, b"\0\7")
        found = certificate(shown.number)
        return Entry(ISSUERS[found.issuer], found.serial, LOGS[shown.log], shown.time)

    def crls(self, epoch: int) -> list[tuple[bytes, Any]]:
        """The CRLs of an epoch, which list certificates of the next one too. The first issuer has two."""
        serials: dict[tuple[int, int], list[bytes]] = {(issuer, 0): [] for issuer in range(len(ISSUERS))}
        serials[0, 1] = []
        for number in range(self.born(min(epoch + 1, len(EPOCHS))).stop):
            found = certificate(number)
            if is_listed(found, epoch):
                serials[found.issuer, number % 2 if found.issuer == 0 else 0].append(found.serial)
        return [
            (ISSUERS[issuer], Crl(serials[issuer, part], "at" if is_enrolled(issuer, epoch) else "before"))
            for issuer, part in sorted(serials)
            if (issuer, epoch) != (5, 1)
        ]

    def ranges(self, epoch: int) -> list[tuple[bytes, int, int]]:
        return [(log, T, T + epoch * SPAN - 1) for log in sorted(LOGS)]

    def job(self, epoch: int) -> Any:
        """The job of tools/reference.py."""
        entries = [self.entry(shown) for shown in self.shown(epoch)]
        return Job(epoch, T, self.ranges(epoch), self.crls(epoch), entries)


class Truth:
    """Which entries are accepted, and which certificates are revoked in the last epoch."""

    def __init__(self, history: History) -> None:
        self.history = history
        self.births = bytearray(history.certificates)
        """Of each certificate the epoch that accepts it first, or 0."""
        self.counts = [Counter(self._met(epoch)) for epoch in EPOCHS]
        """Of each epoch how many entries are of which kind."""

    def _met(self, epoch: int) -> Iterator[str]:
        for shown in self.history.shown(epoch):
            kind = self._kind(shown, epoch)
            if kind == "accepted" and shown.number is not None:
                self.births[shown.number] = self.births[shown.number] or epoch
            yield kind

    def _kind(self, shown: Shown, epoch: int) -> str:
        if shown.number is None:
            return "unread"
        issuer, birth = certificate(shown.number).issuer, self.births[shown.number]
        if shown.time >= T + epoch * SPAN:
            return "uncovered"
        if not is_enrolled(issuer, epoch):
            return "unenrolled"
        is_late = any(
            shown.time < T + before * SPAN and is_enrolled(issuer, before) and not 1 <= birth <= before
            for before in EPOCHS[: epoch - 1]
        )
        return "late" if is_late else "accepted"

    def accepted(self) -> Iterator[tuple[Certificate, Shown, bool]]:
        """Each accepted entry of all epochs, and whether its certificate is revoked: listed since it was accepted."""
        for epoch in EPOCHS:
            for shown in self.history.shown(epoch):
                if shown.number is None or self._kind(shown, epoch) != "accepted":
                    continue
                found, birth = certificate(shown.number), self.births[shown.number]
                since = (each for each in EPOCHS if each >= birth)
                yield found, shown, any(is_enrolled(found.issuer, each) and is_listed(found, each) for each in since)


def is_referred(truth: Truth) -> bool:
    """Whether tools/reference.py counts the same entries, accepts the same, and says the same of each."""
    whole = Whole([truth.history.job(epoch) for epoch in EPOCHS])
    last = len(EPOCHS) - 1
    accepted = [job.entries[at] for job, places in zip(whole.members, whole.accepted) for at in places]
    theirs = [(entry.id, entry.log, entry.time, whole.listed(entry.id, last)) for entry in accepted]
    ours = [
        ((ISSUERS[found.issuer], len(found.serial), found.serial), LOGS[shown.log], shown.time, is_revoked)
        for found, shown, is_revoked in truth.accepted()
    ]
    counts = [dict(counts) for counts in truth.counts]
    return ours == theirs and counts == [{key: count for key, count in each.items() if count} for each in whole.counts]


def write_epoch(history: History, epoch: int, folder: Path, in_a_page: int) -> list[str]:
    """Writes pages and CRLs into a new folder; the lines of EPOCH on them."""
    folder.mkdir()
    lines = []
    for at, (issuer, crl) in enumerate(history.crls(epoch)):
        (folder / f"{at}.crl").write_bytes(crl.bytes)
        lines += ["[[crl]]", f'issuer = "{issuer.hex()}"', f'file = "{folder / str(at)}.crl"']
    pages: dict[bytes, _Pages] = {}
    for log, low, high in history.ranges(epoch):
        pages[log] = _Pages(folder / log.hex()[:8], in_a_page)
        lines += ["[[log]]", f'log = "{log.hex()}"', f"from = {low}", f"to = {high}", f'pages = "{pages[log].folder}"']
    for entry in map(history.entry, history.shown(epoch)):
        pages[entry.log].add(entry)
    for each in pages.values():
        each.write()
    return lines


class _Pages:
    """The pages of a log."""

    def __init__(self, folder: Path, in_a_page: int) -> None:
        self.folder, self._in_a_page, self._count = folder, in_a_page, 0
        self._entries: list[Any] = []
        folder.mkdir()

    def add(self, entry: Any) -> None:
        self._entries.append(entry)
        if len(self._entries) == self._in_a_page:
            self.write()

    def write(self) -> None:
        """Writes the entries that wait, as a page."""
        if self._entries:
            (self.folder / f"{self._count}.json").write_text(page_of(self._entries))
        self._count, self._entries = self._count + 1, []


def again_of(epoch: int) -> int:
    """Into how many places the large one is cut."""
    return 2 * AGAIN if epoch >= SPLIT else AGAIN


def make_sized(folder: Path, epoch: int, lines: Iterable[str], before: list[World]) -> World:
    """An epoch of a chain, over pages and CRLs that were written."""
    faults = folder / "faults"
    faults.mkdir(parents=True)
    text = [f"epoch = {epoch}", f"moment = {T}", f'program = "{FAULTY}"', "workers = 2", "pages = 128"]
    text += ["[places]", 'by = "issuer"', f"count = {COUNT}", f"again = {{ {LARGE} = {again_of(epoch)} }}"]
    if before:
        folders = ", ".join(f'"{world.folder}"' for world in before)
        text += ["[before]", f"folders = [{folders}]"]
    if epoch in (REBASED, SPLIT):
        text += ["[rebase]", f"moment = {T}"]
    if epoch == SPLIT:
        text += [f"places = {[f'{LARGE}.{number:04}' for number in range(AGAIN)]}"]
    (folder / "epoch.toml").write_text("\n".join([*text, *lines]) + "\n")
    return World(folder / "epoch.toml", folder / "made", None, faults)
