"""The things of a world made real: its authorities, its certificates with their timestamps, and its logs' entries."""

from dataclasses import dataclass


from .authority import Authority, der_of
from .log import PRECERT, X509, Logged, LogServer
from .octets import sct_list, serial_octets, vector, without_poison
from .world import Cert, Entry, World

NEVER = 1 << 62


@dataclass(frozen=True)
class Issued:
    """A certificate: its DER, and what clients ask by."""

    place: int
    cert: Cert
    der: bytes
    issuer: bytes
    serial: bytes
    embedded: tuple[tuple[bytes, int], ...]
    """The embedded timestamps: log id and time."""
    others: tuple[tuple[bytes, int], ...]
    """Timestamps that it got behind its signature."""

    @property
    def identity(self) -> tuple[bytes, bytes]:
        return self.issuer, self.serial


Slot = tuple[int, int]
"""A certificate's place, and that of an entry of its."""


def _merging(entry: Entry) -> int:
    return NEVER if entry.merged is None else entry.merged


class Things:
    """All that a world has, in reality. `base` is the URL of the web server."""

    def __init__(self, world: World, base: str) -> None:
        self.world, self.base = world, base
        self.authorities = [Authority(place, spec, base) for place, spec in enumerate(world.issuers)]
        self.logs = [LogServer(place, spec) for place, spec in enumerate(world.logs)]
        self.order = self._order()
        self.issued: list[Issued] = []
        logged: dict[int, dict[int, Logged]] = {place: {} for place in range(len(world.logs))}
        for place, cert in enumerate(world.certs):
            self.issued.append(self._issue(place, cert, logged))
        for log in self.logs:
            entries = logged[log.place]
            log.set_entries([entries[index] for index in sorted(entries)])
        self._crls: dict[tuple[int, int, int], bytes | None] = {}

    def _order(self) -> dict[Slot, tuple[int, int]]:
        """Of each entry its index in its log, and when it is merged. A static log merges in the order of its indices,
        which its timestamps tell; entries that are never merged stand behind all others."""
        order: dict[Slot, tuple[int, int]] = {}
        for log in self.logs:
            slots = [
                (_merging(entry), place, number)
                for place, cert in enumerate(self.world.certs)
                for number, entry in enumerate(cert.entries)
                if entry.log == log.place
            ]
            for index, (merged, place, number) in enumerate(sorted(slots)):
                order[place, number] = index, merged
        return order

    def _issue(self, place: int, cert: Cert, logged: dict[int, dict[int, Logged]]) -> Issued:
        """Makes a certificate: a precertificate for the logs, then itself with their timestamps, which some logs may
        get as well."""
        authority = self.authorities[cert.issuer]
        chain = (der_of(authority.certificates[0]),)
        pre = authority.precertificate(cert)
        tbs = without_poison(pre.tbs_certificate_bytes)
        timestamps = []
        for number, entry in enumerate(cert.entries):
            if not entry.whole:
                body = authority.hash + vector(b"nothing" if entry.unread else tbs, 3)
                one = self._logged((place, number), entry, PRECERT, body, der_of(pre), chain)
                log = self.logs[entry.log]
                timestamps.append(log.timestamp(entry.time, PRECERT, authority.hash + vector(tbs, 3), one.extensions))
                logged[entry.log][self.order[place, number][0]] = one
        der = der_of(authority.certificate(cert, sct_list(timestamps) if timestamps else None))
        for number, entry in enumerate(cert.entries):
            if entry.whole:
                one = self._logged((place, number), entry, X509, vector(der, 3), b"", chain)
                logged[entry.log][self.order[place, number][0]] = one
        seen = [(entry.whole, (self.logs[entry.log].id, entry.time)) for entry in cert.entries if not entry.unread]
        embedded, others = tuple(s for whole, s in seen if not whole), tuple(s for whole, s in seen if whole)
        return Issued(place, cert, der, authority.hash, serial_octets(cert.serial), embedded, others)

    def _logged(
        self, slot: Slot, entry: Entry, type_: int, body: bytes, pre: bytes, chain: tuple[bytes, ...]
    ) -> Logged:
        index, merged = self.order[slot]
        return Logged(entry.time, merged, type_, body, self.logs[entry.log].extensions(index), pre, chain)

    def crl(self, issuer: int, partition: int, epoch: int) -> bytes | None:
        """What stands at a CRL's URL in an epoch; None: nothing."""
        key = issuer, partition, epoch
        if key not in self._crls:
            self._crls[key] = self._made_crl(issuer, partition, epoch)
        return self._crls[key]

    def _made_crl(self, issuer: int, partition: int, epoch: int) -> bytes | None:
        fault = self.world.issuers[issuer].fault(epoch, partition)
        if fault == "missing":
            return None
        if fault == "garbage":
            return b"<html>not found</html>"
        if fault == "older":
            fault, epoch = None, max(epoch - 2, 0)
        moment = self.world.moments[epoch]
        octets = self.authorities[issuer].crl(list(self.world.certs), partition, moment, fault, epoch + 1)
        return octets[: len(octets) // 2] if fault == "cut" else octets
