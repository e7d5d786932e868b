"""Logs: timestamps, entries and tree heads signed by real keys (RFC 6962, 3), and what a log shows in an epoch."""

import base64
import hashlib
from dataclasses import dataclass, replace

from cryptography.hazmat.primitives import hashes
from cryptography.hazmat.primitives.asymmetric import ec

from .authority import key_of, spki
from .octets import be, vector, with_other_serial
from .tree import Tree
from .world import HOUR, Log, World

FIRST_KEY = 1000
X509, PRECERT = 0, 1


@dataclass(frozen=True)
class Logged:
    """An entry: its timestamp, its type, the certificate's part of the leaf, and what stands beside it."""

    time: int
    merged: int
    type: int
    body: bytes
    extensions: bytes
    precertificate: bytes
    chain: tuple[bytes, ...]

    @property
    def timestamped(self) -> bytes:
        """TimestampedEntry."""
        return be(self.time, 8) + be(self.type, 2) + self.body + vector(self.extensions, 2)

    @property
    def leaf(self) -> bytes:
        """MerkleTreeLeaf."""
        return b"\0\0" + self.timestamped

    @property
    def extra(self) -> bytes:
        """The extra data of get-entries."""
        chain = vector(b"".join(vector(one, 3) for one in self.chain), 3)
        return chain if self.type == X509 else vector(self.precertificate, 3) + chain

    @property
    def tile_leaf(self) -> bytes:
        """TileLeaf of c2sp.org/static-ct-api."""
        chain = b"".join(hashlib.sha256(one).digest() for one in self.chain)
        pre = b"" if self.type == X509 else vector(self.precertificate, 3)
        return self.timestamped + pre + vector(chain, 2)


@dataclass(frozen=True)
class View:
    """What a log shows: entries (more than the head's, or fewer, as it comes), and a tree head over `size` of them."""

    entries: tuple[Logged, ...]
    tree: Tree
    time: int
    size: int
    served: int
    """How many entries are to be had."""
    later: "View | None" = None
    """What is shown from the second tree head on."""
    foreign: bool = False
    """The tree head is signed by another key."""

    @property
    def root(self) -> bytes:
        return self.tree.root(self.size)


class LogServer:
    """A log of a world: its key, its entries in their order, and what it shows at each epoch."""

    def __init__(self, place: int, spec: Log) -> None:
        self.place, self.spec = place, spec
        self.key = key_of("ec", FIRST_KEY + place)
        self.id = hashlib.sha256(spki(self.key)).digest()
        self.entries: tuple[Logged, ...] = ()
        self.tree = Tree([])

    def set_entries(self, entries: list[Logged]) -> None:
        """Gives the log all entries that it ever merges, in their order."""
        self.entries = tuple(entries)
        self.tree = Tree([entry.leaf for entry in entries])

    def sign(self, octets: bytes, foreign: bool = False) -> bytes:
        """A digitally-signed struct: SHA-256 and ECDSA."""
        key = key_of("ec", -3) if foreign else self.key
        assert isinstance(key, ec.EllipticCurvePrivateKey)
        return b"\4\3" + vector(key.sign(octets, ec.ECDSA(hashes.SHA256())), 2)

    def extensions(self, index: int) -> bytes:
        """A timestamp's extensions: in a static log its index."""
        return b"\0" + vector(be(index, 5), 2) if self.spec.kind == "static" else b""

    def timestamp(self, time: int, type_: int, body: bytes, extensions: bytes) -> bytes:
        """SignedCertificateTimestamp."""
        signed = b"\0\0" + be(time, 8) + be(type_, 2) + body + vector(extensions, 2)
        return b"\0" + self.id + be(time, 8) + vector(extensions, 2) + self.sign(signed)

    def head_signature(self, view: View) -> bytes:
        """The signature of a tree head (RFC 6962, 3.5)."""
        return self.sign(b"\0\1" + be(view.time, 8) + be(view.size, 8) + view.root, view.foreign)

    def size_at(self, time: int) -> int:
        return sum(entry.merged <= time for entry in self.entries)

    def first(self) -> int:
        """CONFIG's `first`."""
        return (
            0 if self.spec.first_at is None else self.size_at(self.spec.first_at // self.spec.every * self.spec.every)
        )

    def _view(self, time: int) -> View:
        """What it shows by rights at a time: its newest tree head."""
        time = time // self.spec.every * self.spec.every
        size = self.size_at(time)
        return View(self.entries, self.tree, time, size, size)

    def view(self, world: World, epoch: int) -> View:
        """What it shows in an epoch."""
        fault, moment = self.spec.fault(epoch), world.moments[epoch]
        view = self._view(moment)
        known = self._known(world, epoch)
        if fault == "old":
            return self._view(world.moments[max(epoch - 1, 0)] - 3 * self.spec.every)
        if fault == "ahead":
            return replace(view, time=view.time + 48 * HOUR)
        if fault == "grows":
            # The head is that of a while ago, and the entries of now are served with it already.
            early = self._view((moment + (world.moments[epoch - 1] if epoch else moment - HOUR)) // 2)
            return replace(early, served=view.size, later=view)
        if fault == "short":
            return replace(view, served=known + (view.size - known) // 2)
        if fault == "shrinks":
            return replace(view, size=max(known - 1, 0), served=max(known - 1, 0))
        if fault == "fork" and known and self._fine(epoch):
            return self._forked(view, known - 1)
        if fault == "branch":
            return self._forked(view, self.view(world, epoch - 1).served)
        # Whoever never saw the log can't know that it forks.
        return replace(self._forked(view, known), foreign=True) if fault in ("unsigned", "fork") else view

    def _fine(self, epoch: int) -> list[int]:
        """The epochs before one in which whoever followed it got all that there was."""
        return [at for at in range(self.spec.join, epoch) if self.spec.fault(at) is None]

    def _known(self, world: World, epoch: int) -> int:
        """How many entries whoever followed it has at least, before an epoch."""
        fine = self._fine(epoch)
        return self._view(world.moments[fine[-1]]).size if fine else self.first()

    def _forked(self, view: View, begin: int) -> View:
        """The same with other entries from an index on: those of certificates with other serials."""
        entries = self.entries[:begin] + tuple(_changed(entry) for entry in self.entries[begin:])
        return replace(view, entries=entries, tree=Tree([entry.leaf for entry in entries]))

    def toml(self, base: str, epoch: int) -> str:
        """Its part of CONFIG."""
        lines = [f'name = "Log {self.place}"', f'kind = "{self.spec.kind}"', f'url = "{base}log/{self.place}/"']
        lines.append(f'key = "{base64.b64encode(spki(self.key)).decode()}"')
        lines.append(f'mmd = "{self.spec.mmd_at(epoch) // 1000}s"')
        lines.append(f"first = {self.first()}")
        if self.spec.kind == "static":
            lines.append(f'origin = "log.example/{self.place}"')
        return "\n".join(["[[log]]", *lines, ""])


def _changed(entry: Logged) -> Logged:
    """An entry of another certificate."""
    if entry.type == X509:
        return replace(entry, body=entry.body[:-1] + bytes([entry.body[-1] ^ 1]))
    return replace(entry, body=entry.body[:32] + vector(with_other_serial(entry.body[35:]), 3))
