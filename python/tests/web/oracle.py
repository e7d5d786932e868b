"""The truth about certificates, by `openssl verify -crl_check`, and what a client must read of a published chain."""

import re
import subprocess
from collections.abc import Iterable
from dataclasses import dataclass, field
from pathlib import Path

from .authority import pem_of
from .issuing import Issued, Things
from .world import World, named

REVOKED, EXPIRED = 23, 10
Sighting = tuple[bytes, int]
Identity = tuple[bytes, bytes]


class Openssl:
    """Asks openssl of many certificates in one call."""

    def __init__(self, folder: Path, things: Things) -> None:
        self.folder, self.things = folder, things
        folder.mkdir(parents=True)
        self.calls = 0
        for one in things.issued:
            (folder / f"{one.place}.der").write_bytes(one.der)
        for authority in things.authorities:
            for name, certificates in (("anchor", authority.anchors), ("chain", authority.certificates)):
                (folder / f"{name}{authority.place}.pem").write_bytes(pem_of(certificates[0]))

    def revoked(self, issuer: int, crls: list[bytes], places: list[int], moment: int) -> set[int]:
        """Of an issuer's certificates by their places, those that are revoked at a moment by all of its CRLs. Each
        other one is verified, or expired; another answer is a fault of the tests."""
        words = ["openssl", "verify", "-crl_check", "-attime", str(moment // 1000), "-no-CApath", "-no-CAstore"]
        words += ["-CAfile", f"anchor{issuer}.pem", "-untrusted", f"chain{issuer}.pem"]
        for number, crl in enumerate(crls):
            (self.folder / f"{number}.crl").write_bytes(crl)
            words += ["-CRLfile", f"{number}.crl"]
        words += [f"{place}.der" for place in places]
        self.calls += 1
        done = subprocess.run(words, cwd=self.folder, capture_output=True, text=True, check=False)
        answers = dict.fromkeys((int(place) for place in re.findall(r"^(\d+)\.der: OK$", done.stdout, re.M)), "good")
        errors: set[int] = set()
        for line in done.stderr.splitlines():
            found = re.match(r"error (\d+) at 0 depth lookup|error (\d+)\.der: verification failed", line)
            if found and found[1]:
                errors.add(int(found[1]))
            elif found:
                if errors - {REVOKED, EXPIRED}:
                    raise AssertionError(f"openssl: {done.stderr}")
                answers[int(found[2])] = "revoked" if REVOKED in errors else "good"
                errors = set()
        assert sorted(answers) == sorted(places), done.stderr
        return {place for place, answer in answers.items() if answer == "revoked"}


@dataclass(frozen=True)
class Part:
    """What a part says of itself: its ranges, and the issuers that it has."""

    ranges: dict[bytes, tuple[int, int]]
    issuers: frozenset[bytes]

    def covers(self, sighting: Sighting) -> bool:
        low, high = self.ranges.get(sighting[0], (1, 0))
        return low <= sighting[1] <= high


def answer_by(parts: list[Part], issuer: bytes, sightings: Iterable[Sighting]) -> str:
    """not-covered, not-enrolled, or that the parts must know the certificate: known."""
    covering = [part for part in parts if any(part.covers(one) for one in sightings)]
    if not covering:
        return "not-covered"
    return "known" if any(issuer in part.issuers for part in covering) else "not-enrolled"


@dataclass
class Truth:
    """What is true behind each epoch that is published. An entry is owed from the first epoch on that covers it and
    enrols its issuer, unless it is late: its log merged it behind that. A serial that openssl calls revoked in an epoch
    since then stays so."""

    world: World
    things: Things
    openssl: Openssl
    parts: list[Part] = field(default_factory=list)
    births: dict[Identity, int] = field(default_factory=dict)
    revoked: set[Identity] = field(default_factory=set)
    kept: dict[tuple[int, int], tuple[int, int, bytes]] = field(default_factory=dict)
    asked: int = 0

    def fetch(self, epoch: int) -> None:
        """Notes the CRLs that a publisher can accept in an epoch: the newest ones."""
        for place, issuer in enumerate(self.world.issuers):
            for partition in range(issuer.crls) if named(issuer, epoch) else ():
                fault = issuer.fault(epoch, partition)
                octets = self.things.crl(place, partition, epoch)
                if fault not in (None, "older") or octets is None or (epoch, partition) in issuer.drops:
                    continue
                made = epoch if fault is None else max(epoch - 2, 0)
                if made > self.kept.get((place, partition), (0, -1, b""))[1]:
                    until = self.world.moments[made] + issuer.valid if issuer.valid is not None else 1 << 62
                    self.kept[place, partition] = until // 1000 * 1000, made, octets

    def now(self, epoch: int) -> int:
        """The moment of an epoch: what the clock says, which never goes back."""
        return max(self.world.now(before) for before in range(epoch + 1))

    def can_enrol(self, epoch: int) -> set[int]:
        """The issuers whose CRLs are all there and in time."""
        now = self.now(epoch)
        return {
            place
            for place, issuer in enumerate(self.world.issuers)
            if named(issuer, epoch)
            and all(self.kept.get((place, p), (-1, -1, b""))[0] >= now for p in range(issuer.crls))
        }

    def _is_late(self, identity: Identity, sighting: Sighting) -> bool:
        """Whether a part covers an entry, with its issuer, before its identity is born."""
        earlier = self.parts[: self.births.get(identity, len(self.parts))]
        return any(part.covers(sighting) and identity[0] in part.issuers for part in earlier)

    def _entries(self, taken: dict[int, int]) -> Iterable[tuple[Issued, Sighting]]:
        """All entries that stand in their logs before these indices, and behind CONFIG's `first`."""
        first = {log.place: log.first() for log in self.things.logs}
        for one in self.things.issued:
            for number, entry in enumerate(one.cert.entries):
                index, _ = self.things.order[one.place, number]
                if not entry.unread and first[entry.log] <= index < taken.get(entry.log, 0):
                    yield one, (self.things.logs[entry.log].id, entry.time)

    def publish(self, epoch: int, part: Part, taken: dict[int, int]) -> None:
        """Takes a delta or the first snapshot, of the epoch. `taken`: how many entries of each log could be had."""
        enrolled = {self.things.authorities[place].hash: place for place in range(len(self.world.issuers))}
        fresh = [
            one.identity
            for one, seen in self._entries(taken)
            if part.covers(seen) and one.issuer in part.issuers and not self._is_late(one.identity, seen)
        ]
        for identity in fresh:
            self.births.setdefault(identity, len(self.parts))
        self.parts.append(part)
        for key in sorted(part.issuers):
            self._listen(epoch, enrolled[key])

    def _listen(self, epoch: int, issuer: int) -> None:
        """What openssl says in an epoch of an issuer's certificates."""
        crls = [self._crl(epoch, issuer, p) for p in range(self.world.issuers[issuer].crls)]
        known = [one for one in self.things.issued if one.cert.issuer == issuer and one.identity in self.births]
        if known:
            self.asked += len(known)
            moment = max(self.now(epoch), self.world.moments[epoch])
            listed = self.openssl.revoked(issuer, crls, [one.place for one in known], moment)
            self.revoked.update(self.things.issued[place].identity for place in listed)

    def _crl(self, epoch: int, issuer: int, partition: int) -> bytes:
        """A CRL by which the truth goes: the newest that a publisher could accept, where it is in time. A publisher
        that enrols the issuer without one is held against what the authority would publish."""
        until, _, octets = self.kept.get((issuer, partition), (-1, -1, b""))
        if until >= self.now(epoch):
            return octets
        authority, moment = self.things.authorities[issuer], self.world.moments[epoch]
        return authority.crl(list(self.world.certs), partition, moment, None, epoch + 1)

    def rebase(self, part: Part, cut: int) -> None:
        """The chain begins anew with a snapshot: what expired before `cut` is gone, and issuers that it hasn't."""
        until = {one.identity: one.cert.until * 1000 for one in self.things.issued}
        left = {x for x in self.births if x[0] in part.issuers and until[x] >= cut}
        self.parts, self.births = [part], dict.fromkeys(left, 0)
        self.revoked &= left

    def _is_below(self, one: Issued, sighting: Sighting) -> bool:
        """Whether a timestamp is of an entry below CONFIG's `first`. None of these is taken, so none may be covered,
        also where the log merged some entry too late."""
        for number, entry in enumerate(one.cert.entries):
            log = self.things.logs[entry.log]
            if (log.id, entry.time) == sighting:
                return self.things.order[one.place, number][0] < log.first()
        return False

    def expected(self, one: Issued, asked: tuple[Sighting, ...]) -> str:
        """What a client must read; `free` where that is left open: no entry was owed, or one is late."""
        sightings = tuple(sighting for sighting in asked if not self._is_below(one, sighting))
        answer = answer_by(self.parts, one.issuer, sightings)
        if answer != "known":
            return answer
        born = self.births.get(one.identity)
        if born is None or any(self._is_late(one.identity, seen) for seen in sightings):
            return "free"
        return "revoked" if one.identity in self.revoked else "good"
