"""What tools/reference.py says of files: parts, ledgers, jobs and queries are read by their layouts, the first field
that breaks one is named, and so is why a job is refused; chains begun anew from files of ledgers; rehearsals and audits
of files of jobs."""

from reference import (
    EVERYTHING,
    Ledger,
    LedgerItem,
    LedgerPart,
    Mixed,
    Part,
    Refused,
    Sharded,
    columns_of,
    has_shards,
    history_of,
    rebased,
    sha,
    text_of,
    verdict,
    words_for,
)


# ---------- layouts ----------
class Fields:
    """The fields of a file, one behind the other."""

    def __init__(self, data):
        self.data, self.at = data, 0

    def refuse(self, field, why):
        raise Refused(3, f"layout {self.at} {field} {why}")

    def take(self, field, width, passes=lambda octets: True):
        octets = self.data[self.at : self.at + width]
        if len(octets) < width:
            self.refuse(field, "short")
        if not passes(octets):
            self.refuse(field, "value")
        self.at += width
        return octets

    def magic(self, field, text):
        self.take(field, len(text), lambda octets: octets == text)

    def number(self, field, width, passes=lambda number: True):
        octets = self.take(field, width, lambda octets: passes(int.from_bytes(octets, "big")))
        return int.from_bytes(octets, "big")

    def digest(self, field, first):
        """The digest of the octets from the first one on."""
        wanted = sha(self.data[first : self.at])
        given = self.data[self.at : self.at + len(wanted)]
        if given != wanted:
            self.refuse(field, "short" if len(given) < len(wanted) else "digest")
        self.at += len(wanted)

    def end(self):
        if self.at < len(self.data):
            self.refuse("end", "value")


def read_queries(data):
    fields = Fields(data)
    fields.magic("query.magic", b"CLUBQRY1")
    queries = []
    for _ in range(fields.number("query.count", 4, lambda count: count <= 65536)):
        issuer = fields.take("query.issuer", 32)
        length = fields.number("query.length", 1, lambda length: 1 <= length <= 32)
        serial = fields.take("query.serial", length)
        count = fields.number("query.sightings", 1, lambda count: 1 <= count <= 64)
        sightings = [(fields.take("sighting.log", 32), fields.number("sighting.time", 8)) for _ in range(count)]
        queries.append(((issuer, length, serial), sightings))
    fields.end()
    return queries


def read_range(fields, log_before):
    log = fields.take("range.log", 32, lambda log: log_before is None or log > log_before)
    first = fields.number("range.from", 8)
    return log, first, fields.number("range.to", 8, lambda last: last >= first)


def read_ranges(fields, count_field):
    ranges = []
    for _ in range(fields.number(count_field, 2, lambda count: count <= 1024)):
        ranges.append(read_range(fields, ranges[-1][0] if ranges else None))
    return ranges


def read_stage(fields, name, planes):
    """The seed, the starts and the planes of a stage."""
    seed = fields.number(f"{name}.seed", 1)
    starts = fields.number(f"{name}.starts", 4, lambda starts: 1 <= starts <= 4718593)

    def is_padded(words):
        return columns_of(words) < 2 ** (starts + 127)

    words = [fields.take(f"{name}.plane", 8 * words_for(starts), is_padded) for _ in range(planes)]
    return seed, starts, [columns_of(plane) for plane in words]


def read_mixed(fields):
    k = fields.number("block.k", 1, lambda k: k <= 16)
    approx = read_stage(fields, "approx", k) if k else None
    seed, starts, planes = read_stage(fields, "exact", 1)
    return Mixed(k, approx, (seed, starts, planes[0]))


def read_leaf(fields, mode):
    return read_mixed(fields) if mode == 2 else ("none", "all")[mode]


def read_block(fields, version):
    mode = fields.number("block.mode", 1, lambda mode: mode <= 2 or mode == 3 and version == 2)
    if mode < 3:
        return read_leaf(fields, mode)
    shift = fields.number("block.shift", 1, lambda shift: 1 <= shift <= 8)
    modes = (fields.number("shard.mode", 1, lambda mode: mode <= 2) for _ in range(2**shift))
    return Sharded(shift, [read_leaf(fields, mode) for mode in modes])


def take_part(fields):
    """The part that stands next."""
    first = fields.at
    fields.magic("part.magic", b"CLUBCARD")
    version = fields.number("part.version", 1, lambda version: version in (1, 2))
    kind = fields.number("part.kind", 1, lambda kind: kind <= 1)
    epoch = fields.number("part.epoch", 8)
    parent = fields.take("part.parent", 32, lambda parent: kind == 1 or parent == bytes(32))
    ranges, blocks = read_ranges(fields, "part.ranges"), []
    for _ in range(fields.number("part.issuers", 4, lambda count: count <= 65535)):
        issuer = fields.take("block.issuer", 32, lambda issuer: not blocks or issuer > blocks[-1][0])
        blocks.append((issuer, read_block(fields, version)))
    fields.take("part.sharded", 0, lambda _: version == 1 or has_shards(blocks))
    fields.digest("part.trailer", first)
    part = Part(kind, epoch, parent, ranges, blocks)
    assert part.bytes == fields.data[first : fields.at], "a part has one text"
    return part


def read_part(data):
    """The part of a file that holds one."""
    fields = Fields(data)
    part = take_part(fields)
    fields.end()
    return part


def of_part(name, data, told):
    """The status and the text of a command that reads a part and tells something of it."""
    try:
        return 0, told(read_part(data))
    except Refused as refused:
        return refused.status, refused.line(name)


def check(name, data):
    """Of a part's name and bytes."""
    return of_part(name, data, Part.checked)


def show(name, data):
    return of_part(name, data, Part.shown)


def lies_in(part, ranges):
    log, first, last = part
    return any(of == log and a <= first and last <= b for of, a, b in ranges)


def read_ledger_part(fields, before):
    """A part of a ledger, behind another one (None: it is the first)."""
    epoch = fields.number("ledger.epoch", 8, lambda number: before is None or number > before.epoch)
    trailer = fields.take("ledger.part_trailer", 32)
    ranges, issuers = read_ranges(fields, "ledger.ranges"), []
    covered = before.ranges if before else []
    fields.take("ledger.coverage", 0, lambda _: all(lies_in(part, ranges) for part in covered))
    for _ in range(fields.number("ledger.issuers", 4, lambda count: count <= 65535)):
        issuers.append(fields.take("ledger.issuer", 32, lambda octets: not issuers or octets > issuers[-1]))
    return LedgerPart(epoch, trailer, ranges, issuers)


def read_item(fields, version, parts, before):
    """An item of a ledger of so many parts, behind one of this identity."""
    issuer = fields.take("identity.issuer", 32, lambda octets: octets >= before[0])
    length = fields.number("identity.length", 1, lambda length: 1 <= length <= 32)
    serial = fields.take("identity.serial", length, lambda octets: (issuer, length, octets) > before)
    birth = fields.number("identity.birth", 1, lambda birth: birth < parts)
    last = fields.number("identity.last", 1, lambda last: last == 255 or birth <= last < parts)
    until = None
    if version == 2 and fields.number("identity.dated", 1, lambda dated: dated <= 1):
        until = int.from_bytes(fields.take("identity.until", 8), "big", signed=True)
    return LedgerItem((issuer, length, serial), birth, None if last == 255 else last, until)


def read_ledger(data):
    """The ledger of a file that holds one."""
    fields = Fields(data)
    fields.magic("ledger.magic", b"CLUBLEDG")
    version = fields.number("ledger.version", 1, lambda version: version in (1, 2))
    parts, items = [], []
    for _ in range(fields.number("ledger.parts", 1, lambda count: 1 <= count <= 64)):
        parts.append(read_ledger_part(fields, parts[-1] if parts else None))
    for _ in range(fields.number("ledger.identities", 4, lambda count: count <= 4194304)):
        items.append(read_item(fields, version, len(parts), items[-1].identity if items else (b"", 0, b"")))
    fields.digest("ledger.digest", 0)
    fields.end()
    ledger = Ledger(parts, items)
    assert ledger.written(version) == data, "a ledger has one text in each version"
    return ledger


def rebase(name, data, moment, cut=EVERYTHING):
    """The status and the text of `rebase`, or of `rebase-without` or `split` where not everything is kept, of a
    ledger's name and bytes, and what it writes: a part and its ledger, or nothing."""
    try:
        part, ledger, line = rebased(read_ledger(data), moment, cut)
    except Refused as refused:
        return refused.status, refused.line(name), []
    return 0, line + "\n", [part.bytes, ledger.bytes]


def read_job_fields(data):
    """Reads the fields of a job, and not what they mean."""
    fields = Fields(data)
    fields.magic("job.magic", b"CLUBJOB1")
    fields.number("job.epoch", 8)
    fields.number("job.moment", 8)
    before, log = 0, None
    while True:
        kind = fields.number("record.kind", 1, lambda kind: kind == 0 or before <= kind <= 3)
        if kind == 0:
            return fields.end()
        before = kind
        if kind == 1:
            log, _, _ = read_range(fields, log)
        elif kind == 2:
            fields.take("crl.issuer", 32)
            fields.take("crl.bytes", fields.number("crl.length", 4, lambda length: length <= 67108864))
        else:
            fields.take("entry.log", 32)
            fields.take("entry.leaf", fields.number("entry.leaf_length", 3))
            fields.take("entry.extra", fields.number("entry.extra_length", 3))


# ---------- rehearsals ----------
def test_crls(job):
    """Refuses a job with a CRL that isn't accepted."""
    for place, (_, crl) in enumerate(job.crls):
        if crl.cut:
            raise Refused(4, f"crl {place} malformed")


def follow(job, before):
    """Refuses a job that doesn't follow those before it. The limits are out of reach of short jobs."""
    if not before:
        return
    newest = before[-1]
    if job.epoch <= newest.epoch:
        raise Refused(5, f"chain epoch {newest.epoch} {job.epoch}")
    for part in newest.ranges:
        if not lies_in(part, job.ranges):
            raise Refused(5, f"chain coverage {part[0].hex()}")
    if len(before) == 64:
        raise Refused(5, "chain full")


class JobFile:
    """A file that is read as a job: its name, what it holds (None: it isn't held), and the job that this is unless it
    breaks its layout."""

    def __init__(self, name, data, job):
        self.name, self.data, self.job = name, data, job

    def read(self):
        if self.data is None:
            raise Refused(8, "read-fault")
        read_job_fields(self.data)
        assert self.data == self.job.bytes(), f"{self.name} holds another job"
        return self.job

    def admitted(self, before):
        job = self.read()
        test_crls(job)
        follow(job, before)
        return job


def rehearse(name, data, files):
    """The status and the text of `rehearse`, of a query file's name and bytes and of the files of jobs."""
    jobs = []
    try:
        queries = read_queries(data)
        for file in files:
            name = file.name
            jobs.append(file.admitted(jobs))
            history_of(tuple(jobs)).parts()
    except Refused as refused:
        return refused.status, refused.line(name)
    history = history_of(tuple(jobs))
    parts = history.parts()
    reports = [history.report(i) for i in range(len(jobs))]
    return 0, text_of(reports + [verdict(parts, identity, sightings) for identity, sightings in queries])


# ---------- audits ----------
class Disagrees(Refused):
    """An accepted entry of which a store doesn't say the truth. Its line names no file."""

    def __init__(self, job, entry, held, truth):
        super().__init__(17, f"audit job {job} entry {entry} held {held} truth {truth}")

    def line(self, name):
        return f"{self.why}\n"


def agreed(parts, history):
    """How many entries a history accepts, if the parts say the truth of each."""
    last = len(history.members) - 1
    for i, (job, places) in enumerate(zip(history.members, history.accepted)):
        for place in places:
            entry = job.entries[place]
            truth = "revoked" if history.listed(entry.id, last) else "good"
            held = verdict(parts, entry.id, [(entry.log, entry.time)])
            if held != truth:
                raise Disagrees(i, place, held, truth)
    return sum(len(places) for places in history.accepted)


def audit(parts, files):
    """The status and the text of `audit`, of the parts of a store and of the files of jobs. The limits are out of reach
    of short jobs."""
    name, jobs = None, []
    try:
        for file in files:
            name = file.name
            jobs.append(file.read())
        for file, job in zip(files, jobs):
            name = file.name
            test_crls(job)
        for i, file in enumerate(files):
            name = file.name
            follow(jobs[i], jobs[:i])
        entries = agreed(parts, history_of(tuple(jobs)))
    except Refused as refused:
        return refused.status, refused.line(name)
    return 0, f"audit jobs {len(jobs)} entries {entries} agree\n"
