"""The calls of crates/vectors that read: DER, times, CRLs, entries, certificates, queries, jobs and words; and sets of
identities. By the rules of docs/FORMATS.md alone."""

from collections.abc import Iterator
from types import SimpleNamespace
from typing import Any

from der_walk import Malformed, Walk
from reference import Job, Ledger, Refused
from reference_files import Fields, read_ledger, read_queries, read_range
from scenario_publishing import classes_of
from scenario_readers import Fed, FoundCrl, FoundEntry, issuer_hash, read_certificate, serial_in, time_in, whole
from scenario_words import Usage
from vector_words import command_text

PUBLISHED = {"ranges": 1024, "crls": 65535, "serials": 16777216, "entries": 4194304}
CERT_FAULTS = {"malformed": "Malformed", "no-scts": "NoScts", "scts": "BadScts", "many": "TooManyScts"}
CRL_FAULTS = {"malformed": "Malformed", "delta": "DeltaCrl", "indirect": "Indirect", "critical": "UnknownCritical"}

Octets = bytes
Identity = tuple[bytes, int, bytes]


class ReadFault(Exception):
    """A read failed."""


# ---------- DER ----------
def element(octets: bytes) -> str | tuple[int, bytes, int]:
    """The tag, the contents and the length of the first element, or the fault."""
    if not octets:
        return "Short"
    if octets[0] & 0x1F == 0x1F:
        return "BadTag"
    if len(octets) < 2:
        return "Short"
    start, length = 2, octets[1]
    if length == 0x80 or length > 0x84:
        return "BadLength"
    if length > 0x80:
        count = length - 0x80
        given = octets[2:][:count]
        if len(given) < count:
            return "Short"
        length, start = int.from_bytes(given, "big"), 2 + count
        if given[0] == 0 or length < 128:
            return "BadLength"
    if len(octets) < start + length:
        return "Short"
    return octets[0], octets[start:][:length], start + length


# ---------- jobs ----------
def records(data: Fed | bytes, limits: dict[str, int]) -> Iterator[tuple[Any, ...]]:
    """The records of a job, in turn: its beginning, ranges, CRLs and entries as they stand, and its end."""
    fields, counts, before, log = Fields(data), [0, 0, 0, 0], 0, None
    fields.magic("job.magic", b"CLUBJOB1")
    yield "begin", fields.number("job.epoch", 8), fields.number("job.moment", 8)
    while True:
        kind = fields.number("record.kind", 1, lambda kind: kind == 0 or before <= kind <= 3)
        before, counts[kind] = kind, counts[kind] + 1
        what = ("", "ranges", "crls", "entries")[kind]
        if kind and counts[kind] > limits[what]:
            raise Refused(6, f"limit {what} {limits[what]}")
        if kind == 0:
            fields.end()
            yield ("end",)
            return
        if kind == 1:
            found = read_range(fields, log)
            log = found[0]
            yield "range", found
        elif kind == 2:
            issuer = fields.take("crl.issuer", 32)
            length = fields.number("crl.length", 4, lambda length: length <= 67108864)
            yield "crl", issuer, fields.take("crl.bytes", length)
        else:
            of = fields.take("entry.log", 32)
            leaf = fields.take("entry.leaf", fields.number("entry.leaf_length", 3))
            yield "entry", of, leaf, fields.take("entry.extra", fields.number("entry.extra_length", 3))


def put_record(job: Job, kind: str, *held: Any) -> None:
    """Puts a record, which isn't read, behind the others of its kind."""
    if kind == "begin":
        job.epoch, job.moment = held
    elif kind == "range":
        job.ranges += held
    elif kind == "crl":
        job.crls.append((held[0], SimpleNamespace(bytes=held[1])))
    elif kind == "entry":
        job.entries.append(SimpleNamespace(log=held[0], leaf=held[1], extra=held[2]))


def read_job(data: bytes, limits: dict[str, int]) -> Job:
    """The job of a file, whose CRLs and entries are read."""
    job, serials = Job(0, 0, [], [], []), 0
    for kind, *held in records(data, limits):
        if kind == "crl":
            crl = FoundCrl(held[1])
            job.crls.append((held[0], crl))
            serials += len(crl.serials)
        elif kind == "entry":
            job.entries.append(FoundEntry(*held))
        else:
            put_record(job, kind, *held)
        if serials > limits["serials"]:
            raise Refused(6, f"limit serials {limits['serials']}")
    return job


# ---------- texts ----------
def named(field: str) -> str:
    return "".join(word.capitalize() for word in field.replace(".", "_").split("_"))


def refused_text(refused: Refused) -> str:
    """Why a file was refused, by its name in the product."""
    kind, *words = refused.why.split()
    if kind == "limit":
        return f" TooMany {{ what: {named(words[0])}, limit: {words[1]} }}"
    at, field, why = words
    return f" {at} {named(field)} {why.capitalize()}"


def crl_text(found: FoundCrl) -> str:
    if found.fault:
        return f" {CRL_FAULTS[found.fault]}"
    following = "" if found.next_ms is None else f" next {found.next_ms // 1000}"
    return f" this {found.this}{following}" + "".join(f" {octets.hex()}" for octets in found.serials)


def entry_text(found: FoundEntry) -> str:
    if found.id is None:
        return "unread"
    until = "never" if found.until is None else found.until
    return f"{identity_text(found.id)} log {found.log.hex()} time {found.time} until {until}"


def identity_text(identity: Identity) -> str:
    issuer, _, octets = identity
    return f"issuer {issuer.hex()} serial {octets.hex()}"


def sightings_text(seen: list[tuple[bytes, int]]) -> str:
    return "".join(f" log {log.hex()} time {time}" for log, time in seen)


def job_text(job: Job) -> str:
    out = [f" epoch {job.epoch} moment {job.moment}"]
    out += [f"range {log.hex()} {first} {last}" for log, first, last in job.ranges]
    out += [f"crl {issuer.hex()}{crl_text(crl)}" for issuer, crl in job.crls]
    return "\n".join(out + [f"entry {entry_text(entry)}" for entry in job.entries])


# ---------- calls ----------
def identity_of(issuer: str, digits: str) -> Identity:
    octets = bytes.fromhex(digits)
    return bytes.fromhex(issuer), len(octets), octets


class Reading:
    """The calls, over files of which a read gives so many bytes at most, and of which one read fails."""

    def __init__(self, files: dict[str, Octets], most: int = 2**64 - 1, read: int | None = None) -> None:
        self.files, self.most, self.failing = files, most, read
        self.made = {"read": 0}

    def bytes(self, word: str) -> Octets:
        return self.files[word] if word in self.files else bytes.fromhex(word)

    def fed(self, word: str) -> Fed:
        """The bytes of a word, as they come."""
        octets = self.bytes(word)

        def read(at: int, count: int) -> Octets:
            number, self.made["read"] = self.made["read"], self.made["read"] + 1
            if number == self.failing:
                raise ReadFault
            end = at + min(count, self.most)
            return octets[at:end]

        return Fed(read)

    def element(self, word: str) -> str:
        found = element(self.bytes(word))
        if isinstance(found, str):
            return found
        tag, contents, taken = found
        return f"tag {tag:02x} bytes {taken} contents {contents.hex()}"

    def elements(self, word: str) -> str:
        out, left = "elements", self.bytes(word)
        while left:
            found = element(left)
            if isinstance(found, str):
                return f"{out} {found}"
            tag, contents, taken = found
            out, left = out + f" {tag:02x}:{contents.hex()}", left[taken:]
        return out

    def time(self, tag: str, text: str) -> str:
        try:
            if tag not in ("17", "18"):
                raise Malformed
            return str(time_in(text.encode(), int(tag, 16)))
        except Malformed:
            return "BadTime"

    def entry(self, leaf: str, extra: str) -> str:
        return entry_text(FoundEntry(bytes([0xAA] * 32), self.bytes(leaf), self.bytes(extra)))

    def issuer(self, word: str) -> str:
        try:
            return f"issuer {issuer_hash(self.bytes(word)).hex()}"
        except Malformed:
            return "unread"

    def timestamps(self, word: str) -> str:
        data = self.bytes(word)
        try:
            digits, _ = serial_in(Walk(whole(data, 0x30)).take("a TBS", 0x30)[0])
            out = f"serial {digits.hex()}"
        except Malformed:
            out = "no serial: Malformed"
        try:
            _, seen = read_certificate(data)
        except Refused as refused:
            return f"{out} {CERT_FAULTS[refused.why.split()[1]]}"
        return out + sightings_text(seen)

    def queries(self, word: str) -> str:
        try:
            out = "queries"
            for identity, seen in read_queries(self.bytes(word)):
                out += f" {identity_text(identity)}{sightings_text(seen)}"
            return out
        except Refused as refused:
            return "queries" + refused_text(refused)

    def crl(self, word: str) -> str:
        return "crl" + crl_text(FoundCrl(self.bytes(word)))

    def job(self, word: str) -> str:
        return self.told_job(word, PUBLISHED)

    def job_limits(self, ranges: str, crls: str, serials: str, entries: str, word: str) -> str:
        most = {"ranges": ranges, "crls": crls, "serials": serials, "entries": entries}
        return self.told_job(word, {what: int(number) for what, number in most.items()})

    def told_job(self, word: str, limits: dict[str, int]) -> str:
        try:
            return "job" + job_text(read_job(self.bytes(word), limits))
        except Refused as refused:
            return "job" + refused_text(refused)

    def classes(self, ledger: str, word: str) -> str:
        """What each entry of a job is behind a ledger, or for `-` in a first job."""
        held = Ledger([], []) if ledger == "-" else read_ledger(self.bytes(ledger))
        kinds = classes_of(read_job(self.bytes(word), PUBLISHED), held)
        return "classes" + "".join(f" {kind.capitalize()}" for _, kind in kinds)

    def records(self, asked: str, word: str) -> str:
        """What a reader of the records answers when it is asked so often, and these records written again."""
        reader, job = records(self.fed(word), PUBLISHED), Job(0, 0, [], [], [])
        out, fault = "records", ""
        for _ in range(int(asked)):
            if not fault:
                try:
                    record = next(reader, ("end",))
                    put_record(job, *record)
                except ReadFault:
                    fault = " ReadFault"
                except Refused as refused:
                    fault = refused_text(refused)
            out += fault or f" {record[0]}"
        return f"{out}\nwritten {job.bytes().hex()}"

    def identities(self, issuer: str, digits: str, *words: str) -> str:
        asked = identity_of(issuer, digits)
        found = sorted({identity_of(*pair) for pair in zip(words[::2], words[1::2])})
        place = f"place {found.index(asked)}" if asked in found else "no place"
        return "\n".join([place] + [identity_text(identity) for identity in found])

    def words(self, *words: str) -> str:
        try:
            return command_text([self.files[word].decode() if word in self.files else word for word in words])
        except Usage:
            return "usage"
