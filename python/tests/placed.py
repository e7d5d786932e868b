"""A publisher whose history is cut into three places by issuer, of which one is cut again by identity; and the truth of
the whole by the second program."""

from collections.abc import Mapping, Sequence
from dataclasses import dataclass, field
from pathlib import Path
from typing import Any

from clubcard import minisign
from clubcard.places import Places
from clubcard.publish.site import publish_site
from spooled import Seen, Spooled, at, key_of, log_of, reference

COUNT, AGAIN = 3, 2
ISSUERS = (0, 1, 2, 3)
LARGE = f"{reference.issuer_place(key_of(0), COUNT):04}"
"""The place that is cut again."""
PLACES = Places("issuer", COUNT, {LARGE: AGAIN})


def entry_of(seen: Seen) -> Any:
    """An entry of the second program, with the leaf that the log shows."""
    made = reference.Entry(key_of(seen.issuer), seen.serial, log_of(seen.log), seen.time, until=seen.until)
    made.leaf = seen.record[36 : 36 + int.from_bytes(seen.record[33:36], "big")]
    return made


def place_of(seen: Seen) -> str:
    """The place of a certificate, by the second program."""
    identity = reference.ident(key_of(seen.issuer), seen.serial)
    name = f"{reference.issuer_place(identity[0], COUNT):04}"
    return f"{name}.{reference.place(identity, AGAIN):04}" if name == LARGE else name


@dataclass
class Placed:
    """The publisher, and all jobs as the whole would have them."""

    world: Spooled
    jobs: list[Any] = field(default_factory=list)
    seen: list[Seen] = field(default_factory=list)

    @classmethod
    def of(cls, folder: Path, places: Places | None = PLACES, **more: Any) -> "Placed":
        """A new one, which has made nothing yet."""
        for name in ("publisher", "other"):
            if not (folder / f"{name}.key").exists():
                folder.mkdir(parents=True, exist_ok=True)
                minisign.new_key(folder / f"{name}.key", folder / f"{name}.pub")
        words = {"site": folder / "site", "key": folder / "publisher.key", "places": places, **more}
        return cls(Spooled.of(folder / "publisher", ISSUERS, (0, 1), **words))

    def entries(self, epoch: int, count: int = 40) -> list[Seen]:
        """The new entries of an epoch, of all issuers and both logs."""
        return [
            Seen(place % 2, at(4 * epoch - 2) + place, place % len(ISSUERS), bytes([1 + place % 7, epoch, place]))
            for place in range(count)
        ]

    def lists(self, epoch: int) -> dict[int, list[bytes]]:
        """The serials that the CRLs list: in each epoch some more, of new certificates and of older ones."""
        seen = self.seen[: 40 * epoch]
        return {
            issuer: [each.serial for each in seen if each.issuer == issuer and sum(each.serial) % 5 < epoch]
            for issuer in ISSUERS
        }

    def prepare(self, epoch: int) -> Mapping[int, Sequence[bytes]]:
        """Writes what is new in an epoch, from 1 on, and notes the job that the whole would have."""
        new = self.entries(epoch)
        self.world.write(new)
        self.world.heads(at(4 * epoch))
        self.seen += new
        lists = self.lists(epoch)
        ranges = sorted((log_of(log), 0, at(4 * epoch - 1)) for log in (0, 1))
        crls = [(key_of(issuer), reference.Crl(listed)) for issuer, listed in lists.items()]
        self.jobs.append(reference.Job(epoch, at(4 * epoch), ranges, crls, [entry_of(each) for each in new]))
        return lists

    def epoch(self, epoch: int) -> Any:
        """Makes an epoch and publishes it."""
        made = self.world.make(at(4 * epoch), self.prepare(epoch))
        self.publish()
        return made.row

    def publish(self) -> None:
        publish_site(self.world.config, self.world.state)

    @property
    def history(self) -> Any:
        """What the second program says of the whole."""
        return reference.History(self.jobs)

    def truth(self) -> list[str]:
        """Of each certificate, in its order, what is true behind the newest epoch."""
        history, newest = self.history, len(self.jobs) - 1
        return ["revoked" if history.listed(entry_of(each).id, newest) else "good" for each in self.seen]
