"""What the commands do over files in memory, by tools/reference.py and docs/FORMATS.md: lines, status and files; also
where a read, a write, a print or a call of the disk fails."""

from collections.abc import Callable, Sequence
from dataclasses import dataclass
from typing import NamedTuple

import scenario_words as words_of
from reference import (
    Cut,
    EVERYTHING,
    Job,
    Part,
    Refused,
    SeedsExhausted,
    at_place,
    crl_record,
    entry_record,
    history_of,
    issuer_place,
    place,
    rebased,
    sample,
    store,
    verdict,
    without,
)
from reference_files import Disagrees, agreed, follow, read_ledger, read_part, read_queries
from scenario_device import GREATEST, Device
from scenario_pages import PAGE_BYTES, read_page
from scenario_publishing import ENTRIES, SERIALS, Limit, Published, admit, published, published_first, test_crls
from scenario_readers import (
    CERTIFICATE_BYTES,
    Fed,
    FoundEntry,
    FoundJob,
    chain_fault,
    read_certificate,
    read_issuer,
    read_job,
    read_store,
)
from scenario_stage import ALL, KINDS, Files
from scenario_words import Usage

# The most bytes that are read or printed by one call.
PIECE = 4096

# The most bytes that `sample` writes by one call, behind its whole pieces of CRLs.
ROOM = 65_536

# How many bytes the record of an entry of `sample` has.
SAMPLED = 108


class Failed(Exception):
    """A call of the outside failed, by which the command ends with this status and this line about a file."""

    def __init__(self, status: int, why: str, name: str) -> None:
        super().__init__(why)
        self.status, self.why, self.name = status, why, name


@dataclass
class Ending:
    """What came of a call: its status, what it printed, and the files that it changed."""

    status: int | None
    printed: str
    changed: Files


def place_by(way: str, identity: words_of.Identity, count: int) -> int | None:
    """The place of an identity among so many, by its issuer or by itself."""
    return issuer_place(identity[0], count) if way == "issuer" else place(identity, count)


class Shape(NamedTuple):
    """How many words a command has behind it, and what it does with them."""

    least: int
    most: int
    run: Callable[..., None]


class World:
    """Files in memory, of which a read gives so many bytes at most, and calls of which one fails: of the disk each
    later one too."""

    def __init__(self, files: Files, most: int = ALL, **fails: int) -> None:
        self.files, self.most, self.fails = dict(files), most, fails
        self.made = {kind: 0 for kind in KINDS}
        self.blamed = ""
        self.lines: list[str] = []
        self.commands = {
            "snapshot": Shape(4, 4, self.snapshot),
            "delta": Shape(5, 5, self.delta),
            "rebase": Shape(5, 5, self.rebase),
            "rebase-without": Shape(6, 1029, self.rebase_without),
            "split": Shape(8, 8, self.split),
            "start": Shape(2, 2, self.start),
            "install": Shape(3, 3, self.install),
            "query": Shape(5, 131, self.query),
            "query-cert": Shape(3, 3, self.query_cert),
            "check": Shape(1, 1, self.check),
            "show": Shape(1, 1, self.show),
            "rehearse": Shape(3, 66, self.rehearse),
            "sample": Shape(3, 3, self.sample),
            "gather": Shape(4, 1027, self.gather),
            "merge": Shape(3, 1026, self.merge),
            "cut": Shape(3, 1026, self.cut),
            "audit": Shape(2, 65, self.audit),
            "place": Shape(4, 4, self.place),
            "device-format": Shape(3, 3, self.device_format),
            "device-install": Shape(2, 2, self.device_install),
            "device-query": Shape(5, 131, self.device_query),
        }

    # ---------- calls of the outside ----------
    def count(self, kind: str, fault: Failed) -> None:
        """Makes a call of a kind."""
        at, self.made[kind] = self.made[kind], self.made[kind] + 1
        fails = self.fails.get(kind)
        if fails is not None and (at == fails or kind == "disk-call" and at > fails):
            raise fault

    def fed(self, name: str) -> Fed:
        """The bytes of a file, as they come. From here on it is the one that is to blame."""
        self.blamed = name
        fault = Failed(8, "read-fault", name)

        def read(at: int, room: int) -> bytes:
            self.count("read", fault)
            if name not in self.files:
                raise fault
            return self.files[name][at : at + min(room, self.most)]

        return Fed(read)

    def front(self, name: str, most: int = ALL) -> bytes:
        """The bytes of a file, or the first of them, and no more is read."""
        return self.fed(name)[:most]

    def write(self, name: str, *pieces: bytes) -> None:
        """Writes a file: it is begun, and then comes each piece that has bytes."""
        fault = Failed(9, "write-fault", name)
        self.count("write", fault)
        self.files[name] = b""
        for piece in filter(None, pieces):
            self.count("write", fault)
            self.files[name] += piece

    # ---------- publishing ----------
    def snapshot(self, job_name: str, part: str, ledger: str, count: str) -> None:
        words_of.workers(count)
        words_of.apart([part, ledger], [job_name])
        job = read_job(self.fed(job_name))
        admit(job, [])
        self.publish(published_first(job), part, ledger)

    def delta(self, job_name: str, old: str, part: str, new: str, count: str) -> None:
        words_of.workers(count)
        words_of.apart([part, new], [job_name, old])
        job = read_job(self.fed(job_name))
        ledger = read_ledger(self.fed(old))
        self.blamed = job_name
        admit(job, ledger.parts)
        self.publish(published(job, ledger), part, new)

    def rebase(self, old: str, moment: str, part: str, new: str, count: str, cut: Cut = EVERYTHING) -> None:
        at = words_of.number(moment)
        words_of.workers(count)
        words_of.apart([part, new], [old])
        self.publish(Published(*rebased(read_ledger(self.fed(old)), at, cut)), part, new)

    def rebase_without(self, old: str, moment: str, part: str, new: str, count: str, *issuers: str) -> None:
        self.rebase(old, moment, part, new, count, without(words_of.keys(issuers, 1024)))

    def split(self, old: str, moment: str, by: str, places: str, here: str, part: str, new: str, count: str) -> None:
        cut = at_place(words_of.by(by), *words_of.place_of(places, here))
        self.rebase(old, moment, part, new, count, cut)

    def publish(self, what: Published, part: str, ledger: str) -> None:
        """Writes a part and its ledger."""
        self.write(part, what.part.bytes)
        self.write(ledger, what.ledger.bytes)
        self.lines = [what.line]

    def rehearse(self, queries_name: str, count: str, *names: str) -> None:
        words_of.names([queries_name, *names], 65)
        words_of.workers(count)
        queries = read_queries(self.fed(queries_name))
        jobs: list[FoundJob] = []
        for name in names:
            job = read_job(self.fed(name))
            admit(job, jobs)
            jobs.append(job)
        history = history_of(tuple(jobs))
        lines = [history.report(place) for place in range(len(jobs))]
        lines += [verdict(history.parts(), identity, seen) for identity, seen in queries]
        self.lines = ["\n".join(lines)]

    def sample(self, wanted: str, count: str, job: str) -> None:
        which, many = words_of.number(wanted), words_of.number(count, 1, 1000000)
        words_of.name(job)
        data, line = sample(which, many)
        front = (len(data) - 1 - SAMPLED * many) // PIECE * PIECE
        self.write(job, data[:front], *(data[at : at + ROOM] for at in range(front, len(data), ROOM)))
        self.lines = line.splitlines()

    def gather(self, head: str, log: str, job: str, *pages: str) -> None:
        log_key = words_of.key(log)

        def entries(page: str, _: FoundJob) -> list[FoundEntry]:
            return [FoundEntry(log_key, *item) for item in read_page(self.front(page, PAGE_BYTES + 1))]

        self.longer("gather pages", entries, head, job, pages)

    def merge(self, head: str, job: str, *pieces: str) -> None:
        def entries(piece: str, found: FoundJob) -> list[FoundEntry]:
            read = read_job(self.fed(piece), counts_serials=False, crls=0)
            if read.epoch != found.epoch:
                raise Refused(5, f"chain epoch {found.epoch} {read.epoch}")
            return read.entries

        self.longer("merge pieces", entries, head, job, pieces)

    def longer(
        self,
        said: str,
        entries: Callable[[str, FoundJob], list[FoundEntry]],
        head: str,
        job: str,
        names: Sequence[str],
    ) -> None:
        """Writes the job of a file with the entries of others behind its own."""
        words_of.apart([job], [head, *names])
        data = self.fed(head)
        found = read_job(data, counts_serials=False)
        out, here = bytearray(data[:-1]), 0
        for name in names:
            more = entries(name, found)
            out += b"".join(map(entry_record, more))
            here += len(more)
            if len(found.entries) + here > ENTRIES:
                self.blamed = job
                raise Limit("entries", ENTRIES)
        self.write(job, bytes(out) + b"\0")
        self.lines = [f"{said} {len(names)} entries {here} bytes {len(out) + 1}"]

    def cut(self, by: str, job: str, *pieces: str) -> None:
        way, count = words_of.by(by), len(pieces)
        words_of.apart(pieces, [job])
        data = self.fed(job)
        found = read_job(data, counts_serials=False)
        texts = []
        for here in range(count):
            head = Job(found.epoch, found.moment, found.ranges, [], []).bytes()[:-1]
            crls = [
                crl_record(of, crl.octets)
                for of, crl in found.crls
                if way == "identity" or issuer_place(of, count) == here
            ]
            entries = [entry_record(e) for e in found.entries if (place_by(way, e.id, count) if e.id else 0) == here]
            texts.append(head + b"".join(crls + entries) + b"\0")
        for piece, text in zip(pieces, texts):
            self.write(piece, text)
        self.lines = [f"cut pieces {count} entries {len(found.entries)} bytes {len(data)}"]

    def place(self, by: str, issuer: str, digits: str, count: str) -> None:
        way, identity, many = words_of.by(by), words_of.identity(issuer, digits), words_of.number(count, 1, 65536)
        found = place_by(way, identity, many)
        self.lines = [f"place {found} of {many}"]

    # ---------- stores ----------
    def start(self, part_name: str, new: str) -> None:
        words_of.apart([new], [part_name])
        part = read_part(self.fed(part_name))
        chain_fault(None, part)
        self.keep([part], new)

    def install(self, old: str, part_name: str, new: str) -> None:
        words_of.apart([new], [old, part_name])
        parts = read_store(self.fed(old))
        self.keep(self.added(parts, part_name), new)

    def added(self, parts: list[Part], part_name: str) -> list[Part]:
        """The parts of a store and the one in a file, which goes on behind them."""
        part = read_part(self.fed(part_name))
        chain_fault(parts[-1], part)
        if len(parts) == 64:
            raise Refused(5, "chain full")
        return parts + [part]

    def keep(self, parts: list[Part], new: str) -> None:
        """Writes a store of these parts."""
        self.write(new, store(parts))
        self.stored(parts)

    def stored(self, parts: list[Part]) -> None:
        """Tells of a store of these parts."""
        self.lines = [f"store parts {len(parts)} epoch {parts[-1].epoch}"]

    def query(self, name: str, issuer: str, digits: str, *seen: str) -> None:
        identity, pairs = words_of.identity(issuer, digits), words_of.sightings(seen)
        words_of.name(name)
        self.lines = [verdict(read_store(self.fed(name)), identity, pairs)]

    def query_cert(self, name: str, cert: str, issuer: str) -> None:
        words_of.names([name, cert, issuer])
        parts = read_store(self.fed(name))
        serial, seen = read_certificate(self.front(cert, CERTIFICATE_BYTES + 1))
        identity = (read_issuer(self.front(issuer, CERTIFICATE_BYTES + 1)), len(serial), serial)
        self.lines = [verdict(parts, identity, seen)]

    def check(self, name: str) -> None:
        words_of.name(name)
        self.lines = read_part(self.fed(name)).checked().splitlines()

    def show(self, name: str) -> None:
        words_of.name(name)
        self.lines = read_part(self.fed(name)).shown().splitlines()

    def audit(self, name: str, *names: str) -> None:
        words_of.names([name, *names], 65)
        parts = read_store(self.fed(name))
        jobs = self.audited(names)
        for job_name, job in zip(names, jobs):
            self.blamed = job_name
            test_crls(job)
        for place, job_name in enumerate(names):
            self.blamed = job_name
            follow(jobs[place], jobs[:place])
        self.lines = [f"audit jobs {len(jobs)} entries {agreed(parts, history_of(tuple(jobs)))} agree"]

    def audited(self, names: Sequence[str]) -> list[FoundJob]:
        """The jobs of an audit, which have no more together than one may have."""
        jobs: list[FoundJob] = []
        for name in names:
            jobs.append(read_job(self.fed(name)))
            if sum(len(job.entries) for job in jobs) > ENTRIES:
                raise Limit("entries", ENTRIES)
            if sum(job.serials for job in jobs) > SERIALS:
                raise Limit("serials", SERIALS)
        return jobs

    # ---------- devices ----------
    def device(self, name: str) -> Device:
        """The device in a file, which is to blame from here on."""
        self.blamed = name
        fault = Failed(13, "disk-fault", name)
        return Device(self.files.get(name, b""), lambda: self.count("disk-call", fault))

    def device_format(self, name: str, capacity: str, stored: str) -> None:
        room = words_of.number(capacity, 1, GREATEST)
        words_of.apart([name], [stored])
        parts = read_store(self.front(stored))
        device = self.device(name)
        try:
            device.format(room, parts)
        finally:
            self.leave(name, device)
        self.stored(parts)

    def device_install(self, name: str, part_name: str) -> None:
        words_of.apart([name], [part_name])
        device = self.device(name)
        slot, parts = device.held()
        parts = self.added(parts, part_name)
        self.blamed = name
        try:
            device.install(slot, parts)
        finally:
            self.leave(name, device)
        self.stored(parts)

    def leave(self, name: str, device: Device) -> None:
        """The device is a file, as far as it was written."""
        if device.data:
            self.files[name] = device.data

    def device_query(self, name: str, issuer: str, digits: str, *seen: str) -> None:
        identity, pairs = words_of.identity(issuer, digits), words_of.sightings(seen)
        words_of.name(name)
        _, parts = self.device(name).held()
        self.lines = [verdict(parts, identity, pairs)]

    # ---------- a call ----------
    def answer(self, words: Sequence[str]) -> tuple[int, list[str]]:
        """The status, and the pieces in which the lines are written."""
        shape = self.commands.get(words[0]) if words else None
        try:
            if shape is None or not shape.least <= len(words) - 1 <= shape.most:
                raise Usage
            shape.run(*words[1:])
        except Usage:
            return 2, ["usage\n"]
        except Failed as failed:
            return failed.status, [f"{failed.why} ", failed.name, "\n"]
        except (Disagrees, SeedsExhausted) as unnamed:
            return unnamed.status, [f"{unnamed.why}\n"]
        except Refused as refused:
            return refused.status, [f"{refused.why} ", self.blamed, "\n"]
        return 0, [f"{line}\n" for line in self.lines]

    def run(self, words: Sequence[str]) -> Ending:
        """Runs the words, and prints what they come to, as far as it is taken."""
        before = dict(self.files)
        status, pieces = self.answer(words)
        printed = ""
        try:
            for piece in (piece[at : at + PIECE] for piece in pieces for at in range(0, len(piece), PIECE)):
                self.count("print", Failed(9, "", ""))
                printed += piece
        except Failed:
            status = 9
        changed = {name: data for name, data in self.files.items() if before.get(name) != data}
        return Ending(status, printed, changed)
