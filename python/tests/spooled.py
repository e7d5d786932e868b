"""A publisher's state whose spool, tree heads and CRLs are written by hand, and epochs over it by the real program.

Issuers and logs go by small numbers, from 0; times are hours behind a first one, where nothing else is said.
"""

import io
from collections.abc import Mapping, Sequence
from dataclasses import dataclass, field, replace
from hashlib import sha256
from pathlib import Path
from typing import Any

from clubcard import Query, Sighting, Store, Verdict
from clubcard.engine import Engine
from clubcard.fleet import Fleet
from clubcard.jobs import entry_record
from clubcard.progress import Silent
from clubcard.publish import chain
from clubcard.publish.alarms import Alarms
from clubcard.publish.config import Config, Issuer, Log
from clubcard.publish.epoch import EpochMade, Limits, make_epoch
from clubcard.publish.issuers import Enrolment
from clubcard.publish.kept import KeptCrl
from clubcard.publish.spool import named_log
from clubcard.publish.state import State
from made import PROGRAM, precertificate_entry, second_program

HOUR = 3_600_000
T = 1_700_000_000_000
MMD = HOUR
LONG = T // 1000 + 10**8
"""A notAfter that lies far ahead, in seconds."""
reference = second_program("reference")


def at(hours: float) -> int:
    """The milliseconds of a time."""
    return T + int(hours * HOUR)


def key_of(issuer: int) -> bytes:
    """The issuer hash of an issuer."""
    return sha256(b"issuer %d" % issuer).digest()


def log_of(log: int) -> bytes:
    """The id of a log: descending, so that an order by numbers isn't one by ids."""
    return bytes([0xFF - log]) + sha256(b"log %d" % log).digest()[1:]


def config_of(folder: Path, issuers: Sequence[int], logs: Sequence[int], **more: Any) -> Config:
    """A CONFIG of some issuers and logs."""
    words: dict[str, Any] = {
        "path": folder / "config.toml",
        "name": "a chain",
        "state": folder / "state",
        "site": folder / "site",
        "key": folder / "key",
        "next_key": None,
        "program": PROGRAM,
        "workers": 2,
        "valid_for": 24 * HOUR,
        "rebase_after": 40,
        "patience": 8,
        "max_away": 240 * HOUR,
        "grace": 0,
        "keep": 100 * HOUR,
        "issuers": tuple(Issuer(f"Issuer {each}", key_of(each), (), (f"http://crl/{each}",), {}) for each in issuers),
        "logs": tuple(config_log(each) for each in logs),
    }
    return Config(**(words | more))


def config_log(log: int, first: int = 0) -> Log:
    """A log as CONFIG names it."""
    return Log(f"Log {log}", log_of(log), "rfc6962", f"http://log/{log}/", b"", MMD, first, f"log/{log}")


@dataclass(frozen=True)
class Seen:
    """An entry: when its log saw which certificate, and when that expires (seconds; None: it has no date)."""

    log: int
    time: int
    issuer: int
    serial: bytes
    until: int | None = LONG

    @property
    def record(self) -> bytes:
        """Its record in a job."""
        der = reference.der
        dates = b"" if self.until is None else reference.validity(reference.D, reference.time_of(self.until))
        tbs = der(0x30, der(2, self.serial) + dates)
        return entry_record(log_of(self.log), *precertificate_entry(tbs, key_of(self.issuer), self.time))

    @property
    def identity(self) -> tuple[int, bytes]:
        return self.issuer, self.serial


@dataclass
class Spooled:
    """A state under hand. Each test writes what it wants, and asks for epochs."""

    folder: Path
    config: Config
    state: State
    engine: Engine = field(default_factory=lambda: Engine(PROGRAM))
    limits: Limits = field(default_factory=Limits)
    alarms: Alarms = field(default_factory=lambda: Alarms(io.StringIO()))

    @classmethod
    def of(cls, folder: Path, issuers: Sequence[int] = (0,), logs: Sequence[int] = (0,), **more: Any) -> "Spooled":
        """A new one, whose CONFIG names these issuers and logs."""
        config = config_of(folder, issuers, logs, **more)
        made = cls(folder, config, State.open(config.state))
        for log in config.logs:
            named_log(made.state, log)
        return made

    def write(self, entries: Sequence[Seen], aside: str | None = None) -> None:
        """Puts entries into the spool, in one segment, behind those that are there."""
        state, path = self.state, self.state.new_file("spool", ".entries")
        path.write_bytes(b"".join(entry.record for entry in entries))
        with state.transaction() as db:
            words = (state.named(path), path.stat().st_size)
            segment, start = db.execute("INSERT INTO segment (file, length) VALUES (?, ?)", words).lastrowid, 0
            for entry in entries:
                query = "SELECT id, taken FROM log WHERE key = ?"
                log, taken = db.execute(query, (log_of(entry.log),)).fetchone()
                issuer, length = state.issuer_id(key_of(entry.issuer)), len(entry.record)
                row = (log, taken, entry.time, issuer, entry.serial, entry.until, segment, start, length, aside)
                db.execute(
                    "INSERT INTO entry (log, place, time, issuer, serial, until, segment, start, length, aside)"
                    " VALUES (?, ?, ?, ?, ?, ?, ?, ?, ?, ?)",
                    row,
                )
                change = "UPDATE log SET taken = taken + 1, latest = max(coalesce(latest, 0), ?), compact = NULL"
                db.execute(f"{change} WHERE id = ?", (entry.time, log))
                start += length

    def head(self, log: int, time: int, size: int | None = None) -> None:
        """A verified tree head of a log; without a size it is one of all entries that are there."""
        change = "UPDATE log SET head_time = ?, head_size = coalesce(?, taken), head_root = zeroblob(32) WHERE key = ?"
        self.state.db.execute(change, (time, size, log_of(log)))

    def heads(self, time: int) -> None:
        """A tree head of each log."""
        for log in self.config.logs:
            number = next(n for n in range(256) if log_of(n) == log.id)
            self.head(number, time)

    def crl(self, issuer: int, listed: Sequence[bytes], place: int = 0, octets: bytes | None = None) -> KeptCrl:
        """A kept CRL that lists these serials, or of these bytes."""
        held = reference.Crl(list(listed)).bytes if octets is None else octets
        path = self.state.folder / "crls" / f"{issuer}-{place}-{sha256(held).hexdigest()[:16]}"
        path.write_bytes(held)
        return KeptCrl(key_of(issuer), f"http://crl/{issuer}/{place}", path, 1, T, None, sha256(held).digest())

    def enrolment(self, lists: Mapping[int, Sequence[bytes]]) -> Enrolment:
        """Enrols issuers, each with one CRL that lists these serials; the others of CONFIG are left out."""
        crls: dict[bytes, tuple[KeptCrl, ...]] = {}
        crls |= {key_of(issuer): (self.crl(issuer, listed),) for issuer, listed in lists.items()}
        return Enrolment(crls, {each.key: "away" for each in self.config.issuers if each.key not in crls})

    def make(self, moment: int, lists: Mapping[int, Sequence[bytes]]) -> EpochMade:
        """Makes an epoch, of issuers with CRLs that list these serials. The alarms are those of it alone."""
        return self.made(moment, self.enrolment(lists))

    def made(self, moment: int, enrolment: Enrolment) -> EpochMade:
        """Makes an epoch of an enrolment."""
        self.alarms = Alarms(io.StringIO())
        words = (self.config, self.state, self.engine, moment, enrolment, self.alarms, Silent(), self.limits)
        return make_epoch(*words)

    def epoch(self, hours: float, lists: Mapping[int, Sequence[bytes]]) -> EpochMade:
        """Makes an epoch, with a tree head of each log at its moment."""
        self.heads(at(hours))
        return self.make(at(hours), lists)

    def configure(self, **more: Any) -> None:
        """Another CONFIG from now on."""
        self.config = replace(self.config, **more)

    def kinds(self) -> set[str]:
        """The kinds of the newest run's alarms."""
        return {alarm.kind for alarm in self.alarms.raised}

    def ask(self, entries: Sequence[Seen]) -> list[str]:
        """What the published store says of certificates, each asked by its entry."""
        return self.ask_by([(entry.identity, [(entry.log, entry.time)]) for entry in entries])

    def ask_by(self, queries: Sequence[tuple[tuple[int, bytes], Sequence[tuple[int, int]]]]) -> list[str]:
        """What the published store says of identities, each by its sightings (log, time)."""
        release = chain.release(self.state)
        assert release is not None
        made = [
            Query(key_of(issuer), serial, tuple(Sighting(log_of(log), time) for log, time in sightings))
            for (issuer, serial), sightings in queries
        ]
        stores = {each.name: each.store.read_bytes() for each in release.chains}
        held: Store | Fleet = Fleet(release.places, stores) if release.places else Store(stores["whole"])
        answers = held.query_each(made)
        assert all(isinstance(answer, Verdict) for answer in answers)
        return [answer.name.lower().replace("_", "-") for answer in answers]


def dumped(world: Spooled) -> list[str]:
    """All that the database holds, but for the numbers of issuers that were asked for."""
    return [line for line in world.state.db.iterdump() if not line.startswith('INSERT INTO "issuer"')]
