#!/usr/bin/env python3
"""An independent reference of the rules: parts, ledgers, stores and verdicts from jobs, chains begun anew, and jobs of
the generator. What comes of files, of rehearsals and of audits stands in tools/reference_files.py.

Written from the rules and layouts (docs/ARCHITECTURE.md, docs/FORMATS.md) and not from the program. The sets of a
history are worked out by their definitions over all its jobs (not from a birth and a last part), systems are solved by
plain elimination over GF(2) with whole numbers as rows, and the least solution is found by its definition: from the
highest column down, a column is zero where that leaves a solution. It is slow: for histories of some ten thousand
entries.
"""

import datetime
import functools
import hashlib
import typing

from sample_reference import sample as sample_text

T = 1700000000000

# The formats of jobs: the blocks of large issuers are cut into shards in all but the first, and the dates of entries
# are read in the last. And the one in which jobs are taken.
PLAIN, SHARDED, DATED = "plain", "sharded", "dated"
CURRENT = DATED


def sha(*xs):
    return hashlib.sha256(b"".join(xs)).digest()


def be(n, width):
    return n.to_bytes(width, "big")


# ---------- pieces of DER ----------
D = bytes.fromhex("170d3233313131343232313332305a")
D_BEFORE = bytes.fromhex("170d3233313131343232313331395a")
G = bytes.fromhex("300a06082a8648ce3d040302")


def der(tag, contents):
    n = len(contents)
    if n < 128:
        return bytes([tag, n]) + contents
    k = (n.bit_length() + 7) // 8
    return bytes([tag, 0x80 | k]) + be(n, k) + contents


class Crl:
    """A CRL: serials, nextUpdate in milliseconds (None: none)."""

    def __init__(self, serials, next_update=None, cut=False):
        self.serials = serials
        self.listed = frozenset(serials)
        self.cut = cut
        self.next_ms = {None: None, "at": T, "before": T - 1000}[next_update]
        up = {None: b"", "at": D, "before": D_BEFORE}[next_update]
        entries = b"".join(der(0x30, der(2, s) + D) for s in serials)
        revoked = der(0x30, entries) if serials else b""
        tbs = der(0x30, bytes.fromhex("020101") + G + der(0x30, b"") + D + up + revoked)
        self.bytes = der(0x30, tbs + G + bytes.fromhex("030100"))
        if cut:
            self.bytes = self.bytes[:-1]


def time_of(seconds):
    """A time of DER: a UTCTime in the years 1950 to 2049, else a GeneralizedTime."""
    at = datetime.datetime(1970, 1, 1) + datetime.timedelta(seconds=seconds)
    text = f"{at.year:04}{at:%m%d%H%M%S}Z"
    return der(0x17, text[2:].encode()) if 1950 <= at.year < 2050 else der(0x18, text.encode())


def validity(*ends):
    """The fields of a TBS from behind the serial up to a validity, which holds these elements."""
    return 2 * der(0x30, b"") + der(0x30, b"".join(ends))


# What stands behind the serial of an entry without a date: nothing, or too little; a validity of one time, of three, of
# another tag or with more behind the times; and a second element that is no time, or a day that there isn't.
UNDATED = [
    b"",
    2 * der(0x30, b""),
    validity(D),
    validity(D, D, D),
    2 * der(0x30, b"") + der(0x31, D + D),
    validity(D, D, b"\0"),
    validity(D, der(0x04, b"231114221320Z")),
    validity(D, der(0x17, b"20231114221320Z")),
    validity(D, der(0x18, b"231114221320Z")),
    validity(D, der(0x17, b"230229221320Z")),
    validity(D, der(0x17, b"231114241320Z")),
]


class Entry:
    """A precertificate entry, or a raw leaf that is unread. Its date is the end of the certificate's validity, in
    seconds since 1970. Where it has none, one of UNDATED stands behind the serial."""

    def __init__(self, issuer, serial, log, time, leaf=None, extra=b"", until=None, behind=b""):
        self.id = None if leaf is not None else (issuer, len(serial), serial)
        self.log, self.time, self.extra, self.until = log, time, extra, until
        if leaf is None:
            tbs = der(0x30, der(2, serial) + (behind if until is None else validity(D_BEFORE, time_of(until))))
            leaf = b"\0\0" + be(time, 8) + b"\0\1" + issuer + be(len(tbs), 3) + tbs + b"\0\0"
        self.leaf = leaf


class Member:
    """What a history has one behind the other: jobs, or a base and jobs behind it."""

    def covers(self, log, time):
        return any(of == log and a <= time <= b for of, a, b in self.ranges)


def crl_record(issuer, octets):
    """The record of a CRL of a job."""
    return b"\2" + issuer + be(len(octets), 4) + octets


def entry_record(entry):
    """The record of an entry of a job."""
    return b"\3" + entry.log + be(len(entry.leaf), 3) + entry.leaf + be(len(entry.extra), 3) + entry.extra


class Job(Member):
    """A job, with the format in which it is taken. Its bytes don't tell the format."""

    held = ()

    def __init__(self, epoch, moment, ranges, crls, entries, taken=CURRENT):
        self.epoch, self.moment, self.ranges, self.crls, self.entries = epoch, moment, ranges, crls, entries
        self.taken = taken

    def records(self):
        head = b"CLUBJOB1" + be(self.epoch, 8) + be(self.moment, 8)
        ranges = [b"\1" + log + be(a, 8) + be(b, 8) for log, a, b in self.ranges]
        crls = [crl_record(issuer, crl.bytes) for issuer, crl in self.crls]
        return [head] + ranges + crls + [entry_record(entry) for entry in self.entries] + [b"\0"]

    def bytes(self):
        return b"".join(self.records())

    @functools.lru_cache(maxsize=None)
    def enrolled(self):
        out = set()
        for issuer in {i for i, _ in self.crls}:
            mine = [c for i, c in self.crls if i == issuer]
            if all(c.next_ms is None or c.next_ms >= self.moment for c in mine):
                out.add(issuer)
        return out

    def lists(self, identity):
        issuer, _, serial = identity
        return any(i == issuer and serial in c.listed for i, c in self.crls)


# ---------- rows and systems ----------
def row(stage, seed, identity, starts):
    issuer, length, serial = identity
    d = sha(b"CCROW1", bytes([stage, seed]), issuer, bytes([length]), serial)
    coeff = int.from_bytes(d[0:16], "big") | 1
    start = int.from_bytes(d[16:24], "big") % starts
    tag = int.from_bytes(d[24:26], "big")
    return start, coeff, tag


def starts_for(n):
    return n + n // 8 + 1


class System:
    """Equations over GF(2): a basis by highest column, each kept as (row, target)."""

    def __init__(self):
        self.basis = {}

    def reduce(self, r, t):
        while r:
            top = r.bit_length() - 1
            if top not in self.basis:
                return r, t
            br, bt = self.basis[top]
            r, t = r ^ br, t ^ bt
        return 0, t

    def add(self, r, t):
        r, t = self.reduce(r, t)
        if r:
            self.basis[r.bit_length() - 1] = (r, t)
            return True
        return t == 0

    def least(self, columns):
        out = 0
        for c in range(columns - 1, -1, -1):
            if not self.add(1 << c, 0):
                assert self.add(1 << c, 1)
                out |= 1 << c
        return out


def solve(equations, starts):
    s = System()
    for r, t in equations:
        if not s.add(r, t):
            return None
    columns = starts + 127
    x = s.least(columns)
    for r, t in equations:
        assert bin(r & x).count("1") % 2 == t
    return x


def words_for(starts):
    return (starts + 127 + 63) // 64


def words_of(x, starts):
    return b"".join(be((x >> (64 * i)) & (2**64 - 1), 8) for i in range(words_for(starts)))


def columns_of(words):
    """The number whose bits are the columns that words hold."""
    return int.from_bytes(b"".join(words[at : at + 8] for at in range(len(words) - 8, -1, -8)), "big")


def parity(x, start, coeff):
    return bin((coeff << start) & x).count("1") % 2


class Refused(Exception):
    """Why a command isn't done: its status, and its line up to the name of the file."""

    def __init__(self, status, why):
        super().__init__(why)
        self.status, self.why = status, why

    def line(self, name):
        return f"{self.why} {name}\n"


class SeedsExhausted(Refused):
    """A stage of an issuer that is unsolvable at each seed. Its line names no file."""

    def __init__(self, issuer, stage):
        super().__init__(7, f"seeds {issuer.hex()} {stage}")

    def line(self, name):
        return f"{self.why}\n"


class Mixed:
    """A mixed leaf."""

    def __init__(self, k, approx, exact):
        self.k, self.approx, self.exact = k, approx, exact


class Sharded:
    """A block of several leaves, one for each of its 2^shift shards."""

    def __init__(self, shift, leaves):
        self.shift, self.leaves = shift, leaves


def shard(identity, shift):
    """The number that the first bits of a digest spell, as many as the shift says."""
    issuer, length, serial = identity
    return int.from_bytes(sha(b"CCSHARD", issuer, bytes([length]), serial), "big") >> (256 - shift)


def place_by(message, count):
    """The number that the first four bytes of a digest spell, modulo the count of places; none for no such count."""
    return int.from_bytes(sha(message)[:4], "big") % count if 1 <= count <= 65536 else None


def place(identity, count):
    """The place of an identity among so many."""
    issuer, length, serial = identity
    return place_by(b"CCPLACE" + issuer + bytes([length]) + serial, count)


def issuer_place(issuer, count):
    """The place of an issuer among so many."""
    return place_by(b"CCISSUER" + issuer, count)


def shift_in(taken, universe, revoked):
    """How many bits tell the shards of so many identities, of which so many are revoked, in a format."""
    if taken == PLAIN or revoked in (0, universe) or universe < 32768:
        return 0
    return max(shift for shift in range(9) if 2**shift * 16384 <= universe)


def build_blocks(issuers, universe, revoked, taken):
    """A block for each issuer, of its identities in the universe and of those of them that are revoked."""

    def of(issuer, identities):
        return [x for x in identities if x[0] == issuer]

    return [(issuer, build_block(issuer, of(issuer, universe), set(of(issuer, revoked)), taken)) for issuer in issuers]


def build_sharded(issuer, universe, revoked, shift):
    shards = [[] for _ in range(2**shift)]
    for x in universe:
        shards[shard(x, shift)].append(x)
    return Sharded(shift, [build_leaf(issuer, members, revoked) for members in shards])


def build_block(issuer, universe, revoked, taken=CURRENT):
    """universe: sorted identities of the issuer; revoked: set of some of them. Gives a leaf or Sharded. Of several
    leaves that there aren't, the first one decides, and in it the first stage."""
    shift = shift_in(taken, len(universe), len(revoked))
    if shift == 0:
        return build_leaf(issuer, universe, revoked)
    return build_sharded(issuer, universe, revoked, shift)


def build_leaf(issuer, universe, revoked):
    """universe: sorted identities, all or those of a shard; revoked: a set. Gives ('none'|'all'|Mixed)."""
    rs = [x for x in universe if x in revoked]
    others = [x for x in universe if x not in revoked]
    r, n = len(rs), len(others)
    if r == 0:
        return "none"
    if n == 0:
        return "all"
    k = 0
    if r <= n:
        while k < 16 and r * 2 ** (k + 1) <= n:
            k += 1
    approx = None
    fps = others
    if k > 0:
        a = starts_for(r)
        for seed in range(256):
            planes = []
            for p in range(k):
                eqs = []
                for x in rs:
                    s, c, tag = row(1, seed, x, a)
                    eqs.append((c << s, (tag >> p) & 1))
                planes.append(solve(eqs, a))
            if all(p is not None for p in planes):
                break
        else:
            raise SeedsExhausted(issuer, 1)
        approx = (seed, a, planes)
        fps = [x for x in others if accepts(approx, x)]
    a = starts_for(r + len(fps))
    for seed in range(256):
        eqs = []
        for x in rs + fps:
            s, c, _ = row(2, seed, x, a)
            eqs.append((c << s, 1 if x in revoked else 0))
        plane = solve(eqs, a)
        if plane is not None:
            break
    else:
        raise SeedsExhausted(issuer, 2)
    return Mixed(k, approx, (seed, a, plane))


def accepts(approx, x):
    seed, a, planes = approx
    s, c, tag = row(1, seed, x, a)
    return all(parity(p, s, c) == (tag >> i) & 1 for i, p in enumerate(planes))


def positive(block, x):
    if isinstance(block, Sharded):
        return positive(block.leaves[shard(x, block.shift)], x)
    if block == "none":
        return False
    if block == "all":
        return True
    if block.approx is not None and not accepts(block.approx, x):
        return False
    seed, a, plane = block.exact
    s, c, _ = row(2, seed, x, a)
    return parity(plane, s, c) == 1


def ranges_bytes(ranges):
    return be(len(ranges), 2) + b"".join(log + be(a, 8) + be(b, 8) for log, a, b in ranges)


def leaf_bytes(leaf):
    """Its mode, and its fields where it is mixed."""
    if leaf in ("none", "all"):
        return b"\0" if leaf == "none" else b"\1"
    out = b"\2" + bytes([leaf.k])
    if leaf.k:
        seed, a, planes = leaf.approx
        out += bytes([seed]) + be(a, 4) + b"".join(words_of(p, a) for p in planes)
    seed, a, plane = leaf.exact
    return out + bytes([seed]) + be(a, 4) + words_of(plane, a)


def block_bytes(block):
    if isinstance(block, Sharded):
        return b"\3" + bytes([block.shift]) + b"".join(leaf_bytes(leaf) for leaf in block.leaves)
    return leaf_bytes(block)


def has_shards(blocks):
    return any(isinstance(block, Sharded) for _, block in blocks)


class Part:
    """A part. It is written in version 2 exactly where a block is cut into shards."""

    def __init__(self, kind, epoch, parent, ranges, blocks):
        self.kind, self.epoch, self.parent, self.ranges, self.blocks = kind, epoch, parent, ranges, blocks
        self.version = 2 if has_shards(blocks) else 1
        out = b"CLUBCARD" + bytes([self.version, kind]) + be(epoch, 8) + parent + ranges_bytes(ranges)
        out += be(len(blocks), 4) + b"".join(issuer + block_bytes(block) for issuer, block in blocks)
        self.trailer = sha(out)
        self.bytes = out + self.trailer

    def kind_word(self):
        return "delta" if self.kind else "snapshot"

    def checked(self):
        """What `check` prints."""
        counts = f"ranges {len(self.ranges)} issuers {len(self.blocks)} bytes {len(self.bytes)}"
        return f"part {self.kind_word()} epoch {self.epoch} {counts}\n"

    def shown(self):
        """What `show` prints."""
        head = f"part {self.kind_word()} version {self.version} epoch {self.epoch} parent {self.parent.hex()}"
        lines = [head] + [f"range {log.hex()} {first} {last}" for log, first, last in self.ranges]
        for issuer, block in self.blocks:
            lines += shown_block(issuer, block)
        return text_of(lines + [f"trailer {self.trailer.hex()}"])


def shown_block(issuer, block):
    """The line of a block, and behind that of one that is sharded a line for each shard."""
    if not isinstance(block, Sharded):
        return [f"issuer {issuer.hex()} {shown_leaf(block)}"]
    shards = [f"shard {place} {shown_leaf(leaf)}" for place, leaf in enumerate(block.leaves)]
    return [f"issuer {issuer.hex()} sharded {block.shift}"] + shards


def shown_leaf(leaf):
    if leaf in ("none", "all"):
        return leaf
    stages = [("approx", leaf.approx)] if leaf.k else []
    stages.append(("exact", leaf.exact))
    return f"mixed k {leaf.k}" + "".join(f" {name} {stage[0]} {stage[1]}" for name, stage in stages)


def text_of(lines):
    return "".join(line + "\n" for line in lines)


class LedgerPart(typing.NamedTuple):
    """What a ledger remembers of a part. The issuers are ascending."""

    epoch: int
    trailer: bytes
    ranges: list
    issuers: list


class LedgerItem(typing.NamedTuple):
    """What a ledger remembers of an identity: the places of the first part whose job accepted it and of the last one
    that revoked it (None: none did), and its date (None: it has none)."""

    identity: tuple
    birth: int
    last: typing.Optional[int]
    until: typing.Optional[int]

    def bytes(self, version):
        (issuer, length, serial), birth, last, until = self
        out = issuer + bytes([length]) + serial + bytes([birth, 255 if last is None else last])
        if version == 1:
            assert until is None, "version 1 has no dates"
            return out
        return out + (b"\0" if until is None else b"\1" + until.to_bytes(8, "big", signed=True))


class Ledger:
    """A ledger. It is written in version 2. Its identities are ascending."""

    def __init__(self, parts, items):
        self.parts, self.items = parts, items
        self.bytes = self.written(2)

    def written(self, version):
        """Its text in a version. In version 1, which has no dates, that of a ledger without any."""
        out = b"CLUBLEDG" + bytes([version, len(self.parts)])
        for part in self.parts:
            out += be(part.epoch, 8) + part.trailer + ranges_bytes(part.ranges)
            out += be(len(part.issuers), 4) + b"".join(part.issuers)
        out += be(len(self.items), 4) + b"".join(item.bytes(version) for item in self.items)
        return out + sha(out)


# ---------- chains begun anew ----------
def is_expired(until, moment):
    return until is not None and 1000 * until < moment


class Cut(typing.NamedTuple):
    """What a chain begun anew keeps: which issuers it takes, and which of their identities; and the words of a call,
    but for names, moment and workers, and how the line begins."""

    takes: typing.Callable
    chooses: typing.Callable
    words: tuple
    said: str

    def keeps(self, identity):
        return self.takes(identity[0]) and self.chooses(identity)


def each(_):
    return True


EVERYTHING = Cut(each, each, ("rebase",), "rebase")


def without(issuers):
    """All but some issuers, if there are some."""
    command = "rebase-without"
    named = (command, *(issuer.hex() for issuer in issuers))
    return Cut(lambda issuer: issuer not in issuers, each, named, command) if issuers else EVERYTHING


def at_place(way, count, here):
    """What one place of so many keeps, by issuer or by identity."""
    words, said = ("split", way, str(count), str(here)), f"split {here} of {count}"
    if way == "issuer":
        return Cut(lambda issuer: issuer_place(issuer, count) == here, each, words, said)
    return Cut(each, lambda identity: place(identity, count) == here, words, said)


def rebased(ledger, moment, cut=EVERYTHING):
    """What any ledger comes to without what has expired at a moment, and without what a cut doesn't keep: the part, its
    ledger, and the line, which tells of identities that are left out where not everything is kept."""
    newest = ledger.parts[-1]
    issuers = sorted({issuer for part in ledger.parts for issuer in part.issuers if cut.takes(issuer)})
    if len(issuers) > 65535:
        raise Refused(6, "limit issuers 65535")
    others = [item for item in ledger.items if cut.keeps(item.identity)]
    kept = [item for item in others if not is_expired(item.until, moment)]
    revoked = [item.identity for item in kept if item.last is not None]
    blocks = build_blocks(issuers, [item.identity for item in kept], revoked, DATED)
    part = Part(0, newest.epoch, bytes(32), newest.ranges, blocks)
    items = [LedgerItem(item.identity, 0, None if item.last is None else 0, item.until) for item in kept]
    left = "" if cut is EVERYTHING else f" left {len(ledger.items) - len(others)}"
    line = (
        f"{cut.said} epoch {part.epoch} issuers {len(issuers)} universe {len(kept)} revoked {len(revoked)} "
        f"pruned {len(others) - len(kept)}{left}"
    )
    return part, Ledger([LedgerPart(part.epoch, part.trailer, part.ranges, issuers)], items), line


class Base(Member):
    """What a history may begin with in place of a job: what a cut keeps of another one at a moment. It has the ranges
    of the newest member of that one, the issuers of all that the cut takes, and the identities that it keeps and that
    haven't expired, with their sightings, their dates, and whether they are listed, all as at its end. It has no
    entries of its own."""

    entries = ()

    def __init__(self, history, moment, cut=EVERYTHING):
        last = len(history.members) - 1
        others = [x for x in sorted(history.identities(last)) if cut.keeps(x)]
        kept = [x for x in others if not is_expired(history.until(x, last), moment)]
        self.history, self.moment, self.cut = history, moment, cut
        self.epoch, self.ranges = history.members[last].epoch, history.members[last].ranges
        self.issuers = {issuer for member in history.members for issuer in member.enrolled() if cut.takes(issuer)}
        self.held = [(x, s, history.until(x, last)) for x in kept for s in history.sightings(x, last)]
        self.listed = {x for x in kept if history.listed(x, last)}
        self.old_ledger = history.ledger(last)
        self.part, self.ledger, self.line = rebased(self.old_ledger, moment, cut)

    def enrolled(self):
        return self.issuers

    def lists(self, identity):
        return identity in self.listed


class History:
    """The sets of a history, by their definitions over all of its members: jobs, or a base and jobs behind it."""

    def __init__(self, members):
        self.members = members
        self.named = []  # per member: the identities of its accepted entries, of a base those that it holds
        self.seen = {}  # per identity: (member, (log, time), date) of each of these
        self.accepted = []  # per member: the places of its accepted entries, among all of its own
        self.counts = []
        for i, member in enumerate(members):
            here, places, n = list(member.held), [], dict(unread=0, uncovered=0, unenrolled=0, late=0)
            for place, e in enumerate(member.entries):
                if e.id is None:
                    n["unread"] += 1
                elif not member.covers(e.log, e.time):
                    n["uncovered"] += 1
                elif e.id[0] not in member.enrolled():
                    n["unenrolled"] += 1
                elif self.is_late(e, i):
                    n["late"] += 1
                else:
                    here.append((e.id, (e.log, e.time), e.until if member.taken == DATED else None))
                    places.append(place)
            self.accepted.append(places)
            for x, s, date in here:
                self.seen.setdefault(x, []).append((i, s, date))
            self.named.append({x for x, _, _ in here})
            n["accepted"] = len(places)
            self.counts.append(n)

    def is_late(self, entry, i):
        """Whether an earlier member covers an entry and enrolls its issuer, and hasn't its identity."""
        return any(
            member.covers(entry.log, entry.time)
            and entry.id[0] in member.enrolled()
            and entry.id not in self.identities(j)
            for j, member in enumerate(self.members[:i])
        )

    @functools.lru_cache(maxsize=None)
    def identities(self, j):
        return {x for named in self.named[: j + 1] for x in named}

    def birth(self, x):
        return next(i for i, named in enumerate(self.named) if x in named)

    def sightings(self, x, i):
        return [s for j, s, _ in self.seen.get(x, []) if j <= i]

    def until(self, x, i):
        """The date of an identity: None where one of its accepted entries has none, or a base holds it without."""
        dates = [date for j, _, date in self.seen[x] if j <= i]
        return None if None in dates else max(dates)

    @functools.lru_cache(maxsize=None)
    def universe(self, i):
        return sorted(x for x in self.identities(i) if x[0] in self.members[i].enrolled())

    def listed(self, x, i):
        since = self.members[self.birth(x) : i + 1]
        return any(x[0] in member.enrolled() and member.lists(x) for member in since)

    @functools.lru_cache(maxsize=None)
    def revoked(self, i):
        out = set()
        for x in self.universe(i):
            if not self.listed(x, i):
                continue
            if any(
                x in self.revoked(r) and all(self.members[r].covers(*s) for s in self.sightings(x, i)) for r in range(i)
            ):
                continue
            out.add(x)
        return out

    def last(self, x, i):
        rs = [r for r in range(i + 1) if x in self.revoked(r)]
        return max(rs) if rs else None

    @functools.lru_cache(maxsize=None)
    def parts(self):
        out = []
        for i, member in enumerate(self.members):
            if isinstance(member, Base):
                out.append(member.part)
                continue
            blocks = build_blocks(sorted(member.enrolled()), self.universe(i), self.revoked(i), member.taken)
            parent = out[-1].trailer if out else bytes(32)
            out.append(Part(1 if out else 0, member.epoch, parent, member.ranges, blocks))
        return out

    @functools.lru_cache(maxsize=None)
    def ledger(self, i):
        """The ledger after a member. That of a base is also what these sets say."""
        parts = [
            LedgerPart(part.epoch, part.trailer, part.ranges, sorted(member.enrolled()))
            for part, member in zip(self.parts(), self.members[: i + 1])
        ]
        ids = sorted(self.identities(i))
        ledger = Ledger(parts, [LedgerItem(x, self.birth(x), self.last(x, i), self.until(x, i)) for x in ids])
        member = self.members[i]
        assert not isinstance(member, Base) or member.ledger.bytes == ledger.bytes, "a base has one ledger"
        return ledger

    def report(self, i):
        """The line of the command that publishes a member."""
        n, member = self.counts[i], self.members[i]
        if isinstance(member, Base):
            return member.line
        return (
            f"epoch {member.epoch} part {i} issuers {len(member.enrolled())} universe {len(self.universe(i))} "
            f"revoked {len(self.revoked(i))} unread {n['unread']} uncovered {n['uncovered']} "
            f"unenrolled {n['unenrolled']} late {n['late']} accepted {n['accepted']}"
        )


def store(parts):
    return b"CLUBSTOR" + b"\1" + bytes([len(parts)]) + b"".join(p.bytes for p in parts)


def verdict(parts, identity, sightings):
    covering = [p for p in parts if any(log == x and a <= t <= b for x, a, b in p.ranges for log, t in sightings)]
    if not covering:
        return "not-covered"
    blocks = [b for p in covering for k, b in p.blocks if k == identity[0]]
    if not blocks:
        return "not-enrolled"
    return "revoked" if any(positive(b, identity) for b in blocks) else "good"


def ident(k, s):
    return (k, len(s), s)


def queries_bytes(queries):
    out = b"CLUBQRY1" + be(len(queries), 4)
    for (issuer, length, serial), sightings in queries:
        out += issuer + bytes([length]) + serial + bytes([len(sightings)])
        out += b"".join(log + be(time, 8) for log, time in sightings)
    return out


@functools.lru_cache(maxsize=8)
def history_of(members):
    """The history of a tuple of members."""
    return History(list(members))


# ---------- the generator ----------
def sample_job(number, count, taken=CURRENT):
    """The job of `sample`, with what it means. Its bytes are those of tools/sample_reference.py."""
    n = be(number, 8)
    log = sha(b"CCLOG", n)
    issuers = [sha(b"CCISSUER", n, bytes([j])) for j in range(4)]
    serials = [b"\1" + sha(b"CCSAMPLE", n, be(i, 4))[:15] for i in range(count)]
    crls = [(issuers[j], Crl([serials[i] for i in range(j, count, 4) if i // 4 % 100 == 0])) for j in range(4)]
    entries = [Entry(issuers[i % 4], serials[i], log, T + i) for i in range(count)]
    job = Job(1, T, [(log, T, T + count - 1)], crls, entries, taken)
    assert job.bytes() == sample_text(number, count)[0]
    return job


def sample(number, count):
    """What `sample` writes, and its line."""
    data, revoked = sample_text(number, count)
    return data, f"sample {number} entries {count} revoked {revoked} bytes {len(data)}\n"
