"""A chain with a record of its own: what each epoch covered, whom it enrolled, and what its CRLs listed."""

import random
from dataclasses import dataclass, field
from pathlib import Path

import made
from clubcard.engine import Engine
from clubcard.times import DAY, HOUR

reference = made.second_program("reference")
LOGS = [bytes([0xA0 + number]) * 32 for number in range(3)]
ISSUERS = [bytes([0x10 + number]) * 32 for number in range(4)]
ENROLLED: list[set[int]] = [{0, 1, 2, 3, 4, 5}, {0, 2, 3, 5}, {3, 4}, set()]
"""In which epochs, counted from 0, each issuer is enrolled."""
BEGIN = made.MOMENT
EPOCHS = 6


@dataclass
class Certificate:
    """A certificate, when logs saw it, and the moment from which on its CRL lists it, and until when it does."""

    issuer: bytes
    serial: bytes
    seen: list[tuple[bytes, int]]
    revoked: int | None
    dropped: int | None
    accepted: list[int] = field(default_factory=list)
    """Places of the parts whose jobs accepted its entries."""
    first: int | None = None
    """The place of the first part whose CRL lists it since it was accepted."""

    def is_listed(self, moment: int) -> bool:
        """Whether its issuer's CRL lists it."""
        return self.revoked is not None and self.revoked <= moment and not (self.dropped and self.dropped <= moment)


@dataclass
class Epoch:
    """What an epoch's part says of itself."""

    epoch: int
    moment: int
    ranges: dict[bytes, tuple[int, int]]
    issuers: set[bytes]

    def covers(self, sighting: tuple[bytes, int]) -> bool:
        """Whether it covers a timestamp."""
        low, high = self.ranges.get(sighting[0], (1, 0))
        return low <= sighting[1] <= high


class Story:
    """Six epochs with random certificates, and the store behind them."""

    def __init__(self, folder: Path, seed: int, count: int) -> None:
        self.rng = random.Random(seed)
        self.folder, self.engine = folder, Engine(made.PROGRAM)
        self.epochs: list[Epoch] = []
        self.certificates = [self._certificate(number) for number in range(count)]
        self.entries = [(one, sighting) for one in self.certificates for sighting in one.seen]
        for place in range(EPOCHS):
            self._publish(place)

    @property
    def store(self) -> Path:
        """The store of all parts."""
        return self.folder / f"store{EPOCHS - 1}"

    def _certificate(self, number: int) -> Certificate:
        rng, born = self.rng, BEGIN + self.rng.randrange(-DAY, EPOCHS * DAY)
        seen = [(log, born + rng.randrange(HOUR)) for log in rng.sample(LOGS, rng.choice([1, 1, 2, 3]))]
        revoked = born + rng.randrange(3 * DAY) if rng.random() < 0.4 else None
        dropped = revoked + rng.randrange(2 * DAY) if revoked and rng.random() < 0.3 else None
        return Certificate(rng.choice(ISSUERS), b"\x01" + number.to_bytes(2, "big"), seen, revoked, dropped)

    def _epoch(self, place: int) -> Epoch:
        """The first covers one log; a second one comes in the second, and a third one in the fourth."""
        moment = BEGIN + (place + 1) * DAY
        logs = LOGS[: 1 + (place > 0) + (place > 2)]
        ranges = {log: (BEGIN - DAY * self.rng.choice([0, 1]), moment - HOUR) for log in logs}
        if self.epochs:
            for log, (low, _) in self.epochs[-1].ranges.items():
                ranges[log] = (low, ranges[log][1])
        issuers = {issuer for issuer, epochs in zip(ISSUERS, ENROLLED) if place in epochs}
        return Epoch(3 + 2 * place, moment, ranges, issuers)

    def _publish(self, place: int) -> None:
        """Makes a part, and notes what its job accepts and lists."""
        epoch = self._epoch(place)
        self.epochs.append(epoch)
        shown = [entry for entry in self.entries if entry[0].issuer in epoch.issuers and epoch.covers(entry[1])]
        for one, _ in shown:
            one.accepted.append(place)
        for one in self.certificates:
            if one.accepted and one.first is None and one.issuer in epoch.issuers and one.is_listed(epoch.moment):
                one.first = place
        self._write(place, epoch, shown)
        self.entries = [entry for entry in self.entries if entry not in shown]

    def _write(self, place: int, epoch: Epoch, shown: list[tuple[Certificate, tuple[bytes, int]]]) -> None:
        listed = {
            issuer: [one.serial for one in self.certificates if one.issuer == issuer and one.is_listed(epoch.moment)]
            for issuer in sorted(epoch.issuers)
        }
        ranges = [(log, *span) for log, span in sorted(epoch.ranges.items())]
        crls = [(issuer, reference.Crl(serials)) for issuer, serials in listed.items()]
        entries = [reference.Entry(one.issuer, one.serial, *sighting) for one, sighting in shown]
        names = {what: self.folder / f"{what}{place}" for what in ("job", "part", "ledger", "store")}
        names["job"].write_bytes(reference.Job(epoch.epoch, epoch.moment, ranges, crls, entries).bytes())
        before = {what: self.folder / f"{what}{place - 1}" for what in ("ledger", "store")}
        if place == 0:
            line = self.engine.snapshot(names["job"], names["part"], names["ledger"], 1)
            self.engine.start(names["part"], names["store"])
        else:
            line = self.engine.delta(names["job"], before["ledger"], names["part"], names["ledger"], 1)
            self.engine.install(before["store"], names["part"], names["store"])
        assert (line.accepted, line.late, line.uncovered, line.unenrolled) == (len(shown), 0, 0, 0)
