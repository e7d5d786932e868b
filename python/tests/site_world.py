"""A small history for the tests of the site: what the state would say, by hand, and files of parts."""

import hashlib
from dataclasses import dataclass, field
from pathlib import Path

import pytest

from clubcard import minisign
from clubcard.publish import chain
from clubcard.publish.alarms import Alarm
from clubcard.publish.config import Config, Issuer
from clubcard.publish.state import State
from clubcard.times import DAY, HOUR

START = 1_780_000_000_123
STEP = 6 * HOUR


def key(name: str) -> bytes:
    """A key of 32 bytes."""
    return hashlib.sha256(name.encode()).digest()


def config_of(folder: Path) -> Config:
    """A CONFIG of two issuers without logs, whose key is made once."""
    if not (folder / "publisher.key").exists():
        minisign.new_key(folder / "publisher.key", folder / "publisher.pub")
    return Config(
        path=folder / "publisher.toml",
        name="example",
        state=folder / "state",
        site=folder / "site",
        key=folder / "publisher.key",
        next_key=None,
        program="clubcard",
        workers=1,
        valid_for=DAY,
        rebase_after=40,
        patience=8,
        max_away=10 * DAY,
        grace=7 * DAY,
        keep=2 * DAY,
        issuers=(
            Issuer("Example CA", key("first"), (), ("http://127.0.0.1/1.crl",), {}),
            Issuer("Second", key("second"), (), ('http://127.0.0.1/2.crl?"\\', "http://127.0.0.1/3.crl"), {}),
        ),
        logs=(),
    )


@dataclass
class World:
    """Epochs that were published; stands in for `clubcard.publish.chain`."""

    state: State
    rows: list[chain.EpochRow] = field(default_factory=list)
    parts: list[chain.PartRow] = field(default_factory=list)
    formers: list[chain.Former] = field(default_factory=list)
    waits: list[chain.Waiting] = field(default_factory=list)
    generation: int = 1

    def issuers(self, epoch: int) -> tuple[chain.IssuerRow, ...]:
        """Two of CONFIG, of which the second one is away in each third epoch; its name tries to break the page."""
        moment = START + epoch * STEP
        first = chain.IssuerRow(key("first"), "Example CA", True, moment, None, 1000 * epoch, 10 * epoch)
        if epoch % 3:
            return (first, chain.IssuerRow(key("second"), '<b>"Second" & $x$', True, moment, None, 300 * epoch, epoch))
        why = "http://127.0.0.1/2.crl is past its nextUpdate"
        away = chain.IssuerRow(key("second"), '<b>"Second" & $x$', False, moment - STEP, why, 300 * epoch, epoch)
        return (first, away)

    def part(self, kind: str, epoch: int) -> chain.PartRow:
        """A part with bytes of its own."""
        octets = f"{self.generation} {kind} {epoch}".encode() * (500 if kind == "snapshot" else 40 + epoch % 7)
        file = self.state.new_file("chain", ".part")
        file.write_bytes(octets)
        return chain.PartRow(kind, epoch, len(octets), hashlib.sha256(octets).digest(), file)

    def epoch(self, rebased: bool = False) -> None:
        """One more epoch, with a rebase behind it where that is said."""
        epoch = len(self.rows) + 1
        moment = START + epoch * STEP
        self.parts.append(self.part("delta" if self.parts else "snapshot", epoch))
        if rebased:
            self.formers.append(chain.Former(self.generation, moment, tuple(self.parts)))
            self.generation += 1
            self.parts = [self.part("snapshot", epoch)]
        issuers = self.issuers(epoch)
        away = [issuer for issuer in issuers if not issuer.enrolled]
        self.rows.append(
            chain.EpochRow(
                epoch=epoch,
                moment=moment,
                generation=self.generation,
                kind=self.parts[-1].kind,
                length=self.parts[-1].length,
                parts=len(self.parts),
                shown=1300,
                waiting=sum(held.count for held in self.waits),
                late=0,
                universe=1300 * epoch,
                revoked=11 * epoch,
                name="example",
                valid_until=moment + DAY,
                next_key=None,
                issuers=issuers,
                coverage=(
                    chain.Coverage(key("log"), "Example log 2026", 0, moment - DAY - epoch * 60_000),
                    chain.Coverage(key("tiles"), "Example tiles", START - 90 * DAY, moment - DAY - epoch % 5 * HOUR),
                ),
                alarms=tuple(Alarm("issuer", f"{issuer.name}: {issuer.reason}") for issuer in away),
                rebased=rebased,
            )
        )

    def since(self, moment: int) -> frozenset[int]:
        """The epochs of this moment or later ones."""
        return frozenset(row.epoch for row in self.rows if row.moment >= moment)

    def release(self) -> chain.Release | None:
        """The newest epoch."""
        if not self.rows:
            return None
        row, store = self.rows[-1], b"store" * len(self.parts)
        digest = hashlib.sha256(store).digest()
        path = self.state.folder / "chain" / "store"
        whole = chain.PlaceRow("whole", tuple(self.parts), path, len(store), digest)
        return chain.Release(row.generation, row.epoch, row.moment, (whole,), row)


def world_of(folder: Path, monkeypatch: pytest.MonkeyPatch) -> tuple[Config, World]:
    """An empty world, which the site reads in the place of the state's chain."""
    config = config_of(folder)
    world = World(State.open(config.state))
    monkeypatch.setattr(chain, "release", lambda state: world.release())
    monkeypatch.setattr(chain, "history", lambda state, last: world.rows[-last:])
    monkeypatch.setattr(chain, "epochs_since", lambda state, moment: world.since(moment))
    monkeypatch.setattr(chain, "waiting", lambda state: list(world.waits))
    monkeypatch.setattr(chain, "former", lambda state: list(world.formers))
    return config, world


def fill(world: World) -> None:
    """Rows of the state beside the chain: logs, CRLs with a failed try, entries set aside, and what waits."""
    db = world.state.db
    first, second = world.state.issuer_id(key("first")), world.state.issuer_id(key("second"))
    world.state.issuer_id(key("third"))
    logs = [(1, key("log"), "Example log 2026", 0), (2, key("tiles"), "Example tiles", 100)]
    db.executemany("INSERT INTO log (id, key, name, mmd, first, taken) VALUES (?, ?, ?, 86400000, ?, 5000)", logs)
    db.execute("UPDATE log SET head_time = ?, head_size = 5000 WHERE id = 1", (START,))
    db.executemany(
        "INSERT INTO crl (issuer, url, number, this_update, next_update, fetched, file, sha256, asked)"
        " VALUES (?, ?, ?, ?, ?, ?, 'file', x'00', x'00')",
        [
            (first, "http://127.0.0.1/1.crl", "17", START, START + DAY, START),
            (second, 'http://127.0.0.1/2.crl?"\\', None, START - DAY, None, START),
            (second, "http://127.0.0.1/former.crl", "1", START - 90 * DAY, None, START),
        ],
    )
    db.executemany(
        "INSERT INTO crl_try (issuer, url, tried, why) VALUES (?, ?, ?, ?)",
        [
            (first, "http://127.0.0.1/1.crl", START, None),
            (second, 'http://127.0.0.1/2.crl?"\\', START, "status 404"),
            (second, "http://127.0.0.1/3.crl", START, "no answer within 30 s"),
        ],
    )
    db.execute("INSERT INTO segment VALUES (1, 'spool/x', 100)")
    db.execute(
        "INSERT INTO entry (log, place, time, segment, start, length, aside) VALUES (1, 77, ?, 1, 0, 9, 'unread')",
        (START,),
    )
    world.waits = [
        chain.Waiting(key("log"), key("first"), 12, START + 100 * DAY),
        chain.Waiting(key("log"), key("third"), 3400, START),
        chain.Waiting(key("tiles"), key("second"), 2, START),
    ]
