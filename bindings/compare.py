#!/usr/bin/env python3
"""Holds the bindings against the program: many random questions are answered by the program, and by each binding's own
small program, and all answers must be the same.

    compare.py [--questions COUNT] [--seed NUMBER] PROGRAM NAME=COMMAND ..

COMMAND runs the program of a binding: it reads a question a line from standard input, and answers each by a line. The
stores, parts and certificates are those of crates/scenarios/data, as tools/scenarios.py makes them, a large store of
the command `sample`, and damaged ones: cut, with other bytes, and with other bytes below a digest that is made anew.
What the program has no command for, tools/reference.py says: how many parts a store has, and up to when it covers.

| question | answer |
|---|---|
| store FILE | 0 PARTS EPOCH, and the questions behind it are asked of this store; or a refusal |
| ask ISSUER SERIAL [LOG TIME ..] | the number of the answer |
| each ISSUER SERIAL [LOG TIME ..] [| ISSUER SERIAL [LOG TIME ..] ..] | a number for each query, by one call |
| cert CERT ISSUERCERT | the number of the answer; both words are names of files in DER |
| until LOG | 0 MILLISECONDS, or 1 0 where the log isn't covered |
| place BY ISSUER SERIAL COUNT | 0 PLACE, or the number of a refusal and 0 |
| part FILE | 0 KIND EPOCH RANGES ISSUERS TRAILER, with KIND 0 of a snapshot and 1 of a delta; or a refusal |
| install PART NEWSTORE | 0 LENGTH, and the file NEWSTORE is written; or a refusal |

A refusal is NUMBER AT FIELD, with FIELD `-` where the layout isn't at fault. A SERIAL without octets is `-`. The
numbers are those of c/clubcard.h. It prints how many questions were asked, and a line for each binding; the status is 0
where all answers are the same, and 1 where one isn't, of which it prints the first.
"""

import argparse
import hashlib
import random
import shlex
import subprocess
import sys
import tempfile
import time
from collections import Counter
from dataclasses import dataclass, field
from itertools import zip_longest
from pathlib import Path
from typing import Callable, Dict, List, NamedTuple, Optional, Sequence, Tuple

TOP = Path(__file__).resolve().parent.parent
sys.path.insert(0, str(TOP / "tools"))

import scenario_stage  # noqa: E402
from reference import Part  # noqa: E402
from scenario_commands import World  # noqa: E402
from scenario_readers import read_store  # noqa: E402

# What makes files of many megabytes isn't played.
LARGE = ("limits.txt", "sizes.txt")
STORE, PART = b"CLUBSTOR", b"CLUBCARD"
# The bytes before a store's first part, and those of a digest.
HEAD, DIGEST = 10, 32
MOMENT = 1700000000000
VERDICTS = {"not-covered": 1, "not-enrolled": 2, "good": 3, "revoked": 4}
LAYOUTS = {"short": 16, "value": 17, "digest": 18}
CHAINS = {"not-snapshot": 32, "not-delta": 33, "parent": 34, "epoch": 35, "coverage": 36, "full": 37}
CERTS = {"malformed": 64, "no-scts": 65, "scts": 66, "many": 67}
# tools/reference.py has no type hints.
MAKE_PART: Callable[..., Part] = Part
BAD_SERIAL, BAD_PLACES, ISSUER_CERT_MALFORMED, NOT_COVERED = 48, 50, 68, 1
ENTRIES = 20000


class Gathered(World):
    """The files of scenarios: stores, parts, and the certificates that are asked about with their issuers'."""

    stores: Dict[bytes, None] = {}
    parts: Dict[bytes, None] = {}
    certs: Dict[Tuple[bytes, bytes], None] = {}

    def __init__(self, files: Dict[str, bytes], *rest: int, **fails: int) -> None:
        super().__init__(files, *rest, **fails)
        for data in files.values():
            if data[:8] in (STORE, PART):
                (self.stores if data[:8] == STORE else self.parts)[data] = None

    def query_cert(self, store: str, cert: str, issuer: str) -> None:
        """Asks about a certificate, which is kept."""
        if cert in self.files and issuer in self.files:
            self.certs[self.files[cert], self.files[issuer]] = None
        super().query_cert(store, cert, issuer)


class Case(NamedTuple):
    """A question and the answer that is wanted."""

    question: str
    answer: str


@dataclass
class Desk:
    """Makes questions at random, and has them answered by the program."""

    program: str
    folder: Path
    chance: random.Random
    stores: List[bytes] = field(default_factory=list)
    parts: List[bytes] = field(default_factory=list)
    certs: List[Tuple[bytes, bytes]] = field(default_factory=list)
    cases: List[Case] = field(default_factory=list)
    files: Dict[bytes, str] = field(default_factory=dict)
    runs: int = 0

    # ---------- the files ----------
    def gather(self) -> None:
        """The files of scenarios, and a large store."""
        for name in sorted((TOP / "crates/scenarios/data").glob("*.txt")):
            if name.name not in LARGE:
                scenario_stage.transcript(name.read_text(encoding="utf-8"), Gathered)
        self.stores, self.parts = sorted(Gathered.stores), sorted(Gathered.parts)
        self.certs = sorted(Gathered.certs)
        self.stores.append((TOP / "crates/clubcard/data/one_revoked.store").read_bytes())
        job, part, ledger, store = (str(self.folder / name) for name in ("job", "part", "ledger", "store"))
        self.said("sample", "1", str(ENTRIES), job)
        self.said("snapshot", job, part, ledger, "1")
        self.said("start", part, store)
        self.parts.append(Path(part).read_bytes())
        # As often as some of the small ones.
        self.stores += [Path(store).read_bytes()] * 40

    def file(self, data: bytes) -> str:
        """The name of a file with these bytes."""
        if data not in self.files:
            self.files[data] = str(self.folder / f"file{len(self.files)}")
            Path(self.files[data]).write_bytes(data)
        return self.files[data]

    def damaged(self, data: bytes, head: int) -> bytes:
        """The bytes with a damage, and at times with the last digest made anew behind it. `head` bytes aren't below
        it."""
        changed = bytearray(data)
        for _ in range(self.chance.randrange(1, 3)):
            if changed:
                changed[self.chance.randrange(len(changed))] ^= 1 << self.chance.randrange(8)
        match self.chance.randrange(6):
            case 0:
                return bytes(changed[: self.chance.randrange(len(changed) + 1)])
            case 1:
                return data + self.chance.randbytes(self.chance.randrange(1, 40))
            case 2 | 3 if len(changed) > head + DIGEST:
                changed[-DIGEST:] = hashlib.sha256(changed[head:-DIGEST]).digest()
        return bytes(changed)

    # ---------- what the program says ----------
    def said(self, *words: str) -> List[str]:
        """The words of the line that the program prints."""
        self.runs += 1
        ran = subprocess.run([self.program, *words], stdout=subprocess.PIPE, check=False, timeout=600)
        return ran.stdout.decode().split()

    def refusal(self, words: Sequence[str]) -> Optional[str]:
        """The refusal that a line tells, if it tells one."""
        match words:
            case ["layout", at, name, why, *_]:
                return f"{LAYOUTS[why]} {at} {name}"
            case ["chain", what, *_]:
                return f"{CHAINS[what]} 0 -"
        return None

    def verdict(self, words: Sequence[str]) -> str:
        """The number of an answer about an opened store."""
        match words:
            case [verdict]:
                return str(VERDICTS[verdict])
        raise ValueError(f"the program says {words}")

    # ---------- the questions ----------
    def query(self, store: str, parts: Sequence[Part]) -> Tuple[str, str]:
        """A query as words, and its answer."""
        issuers = [issuer for part in parts for issuer, _ in part.blocks] or [bytes(32)]
        ranges = [each for part in parts for each in part.ranges] or [(bytes(32), 0, MOMENT)]
        issuer = self.chance.choice(issuers) if self.chance.randrange(8) else self.chance.randbytes(32)
        serial = self.serial().hex()
        seen = []
        for _ in range(self.chance.choice([0, 1, 1, 1, 1, 1, 2, 3])):
            log, first, last = self.chance.choice(ranges)
            at = self.chance.randint(first, last) if self.chance.randrange(4) else self.near(first, last)
            seen += [log.hex() if self.chance.randrange(16) else self.chance.randbytes(32).hex(), str(at)]
        words = " ".join([issuer.hex(), serial or "-", *seen])
        if not 2 <= len(serial) <= 64:
            return words, str(BAD_SERIAL)
        if not seen:
            return words, str(NOT_COVERED)
        return words, self.verdict(self.said("query", store, issuer.hex(), serial, *seen))

    def near(self, first: int, last: int) -> int:
        """A time at the ends of a range, or any."""
        ends = [first - 1, first, last, last + 1, self.chance.randrange(1 << 64)]
        return min(max(self.chance.choice(ends), 0), (1 << 64) - 1)

    def serial(self) -> bytes:
        """A serial: a small number as in scenarios, one of the large store, or any octets."""
        match self.chance.randrange(8):
            case 0 | 1 | 2 | 3:
                return bytes([self.chance.randrange(24)])
            case 4 | 5 | 6:
                # Entries are listed by hundreds of four (docs/FORMATS.md, "The jobs of the generator").
                entry = self.chance.randrange(ENTRIES // 400) * 400 + self.chance.choice([0, 1, 2, 3, 4, 5])
                octets = b"CCSAMPLE" + (1).to_bytes(8, "big") + entry.to_bytes(4, "big")
                return b"\1" + hashlib.sha256(octets).digest()[:15]
        return self.chance.randbytes(self.chance.choice([0, 1, 2, 20, 32, 33, 40]))

    def ask(self, store: str, parts: Sequence[Part]) -> Case:
        words, answer = self.query(store, parts)
        return Case(f"ask {words}", answer)

    def each(self, store: str, parts: Sequence[Part]) -> Case:
        asked = [self.query(store, parts) for _ in range(self.chance.randrange(1, 6))]
        return Case("each " + " | ".join(words for words, _ in asked), " ".join(answer for _, answer in asked))

    def cert(self, store: str, _: Sequence[Part]) -> Case:
        pair = self.chance.choice(self.certs)
        cert, issuer = (
            self.file(data if self.chance.randrange(6) else self.damaged(data, 0)) for data in (pair[0], pair[1])
        )
        words = self.said("query-cert", store, cert, issuer)
        if words[0] != "cert":
            return Case(f"cert {cert} {issuer}", self.verdict(words))
        is_issuer = words[2] == issuer and issuer != cert
        return Case(f"cert {cert} {issuer}", str(ISSUER_CERT_MALFORMED if is_issuer else CERTS[words[1]]))

    def until(self, _: str, parts: Sequence[Part]) -> Case:
        covered = {log: last for log, _, last in parts[-1].ranges}
        log = self.chance.choice([*covered, self.chance.randbytes(32)])
        return Case(f"until {log.hex()}", f"0 {covered[log]}" if log in covered else "1 0")

    def place(self, _: str, __: Sequence[Part]) -> Case:
        by, issuer, serial = self.chance.choice(["issuer", "identity"]), self.chance.randbytes(32), self.serial().hex()
        any_count = self.chance.randrange(1 << self.chance.randrange(1, 65))
        count = self.chance.choice([0, 1, 16, 65535, 65536, 65537, any_count])
        words = f"place {by} {issuer.hex()} {serial or '-'} {count}"
        match self.said("place", by, issuer.hex(), serial, str(count)):
            case ["place", place, "of", _]:
                return Case(words, f"0 {place}")
        return Case(words, f"{BAD_PLACES if 2 <= len(serial) <= 64 else BAD_SERIAL} 0")

    def some_part(self) -> bytes:
        part = self.chance.choice(self.parts)
        return part if self.chance.randrange(3) else self.damaged(part, 0)

    def part(self, _: str, __: Sequence[Part]) -> Case:
        data = self.some_part()
        name = self.file(data)
        words = self.said("check", name)
        match words:
            case ["part", kind, "epoch", epoch, "ranges", ranges, "issuers", issuers, *_]:
                trailer = data[-DIGEST:].hex()
                return Case(f"part {name}", f"0 {int(kind == 'delta')} {epoch} {ranges} {issuers} {trailer}")
        return Case(f"part {name}", self.refusal(words) or "")

    def following(self, parts: Sequence[Part]) -> bytes:
        """A part that goes on with these, mostly."""
        last = parts[-1]
        epoch = last.epoch + self.chance.choice([0, 1, 1, 1, 2])
        parent = last.trailer if self.chance.randrange(8) else self.chance.randbytes(32)
        ranges = [(log, first, min(end + self.chance.choice([0, 7]), (1 << 64) - 1)) for log, first, end in last.ranges]
        blocks = [(issuer, self.chance.choice(["none", "all"])) for issuer, _ in last.blocks]
        following: bytes = MAKE_PART(1, min(epoch, (1 << 64) - 1), parent, ranges, blocks).bytes
        return following

    def install(self, store: str, parts: Sequence[Part]) -> Case:
        part = self.file(self.following(parts) if self.chance.randrange(3) else self.some_part())
        made = self.folder / "program" / f"made{len(self.cases)}"
        words = self.said("install", store, part, str(made))
        answer = self.refusal(words) or f"0 {made.stat().st_size}"
        return Case(f"install {part} {made.name}", answer)

    def visit(self) -> None:
        """Some questions of a store."""
        data = self.chance.choice(self.stores)
        if self.chance.randrange(4) == 0:
            data = self.damaged(data, HEAD)
        store = self.file(data)
        refusal = self.refusal(self.said("query", store, "00" * 32, "05", "00" * 32, "1"))
        if refusal:
            self.cases.append(Case(f"store {store}", refusal))
            return
        parts = read_store(data)
        self.cases.append(Case(f"store {store}", f"0 {len(parts)} {parts[-1].epoch}"))
        kinds = (
            [self.ask] * 20
            + [self.each] * 4
            + [self.cert] * 4
            + [self.until, self.install, self.place] * 2
            + [self.part]
        )
        for _ in range(self.chance.randrange(1, 40)):
            self.cases.append(self.chance.choice(kinds)(store, parts))


def wrong(cases: Sequence[Case], lines: Sequence[str]) -> Optional[str]:
    """The first answer that isn't as it is wanted."""
    for place, (case, line) in enumerate(zip_longest(cases, lines)):
        if case is None or line != case.answer:
            what = f"{case.question}: {line}, and not {case.answer}" if case else f"a line too many: {line}"
            return f"question {place}: {what}"
    return None


def other_file(cases: Sequence[Case], wanted: Path, given: Path) -> Optional[str]:
    """The first new store that isn't the program's."""
    for case in cases:
        words = case.question.split()
        if words[0] == "install" and case.answer.startswith("0 "):
            if (wanted / words[2]).read_bytes() != (given / words[2]).read_bytes():
                return f"{case.question}: another store"
    return None


def run(name: str, command: str, desk: Desk) -> bool:
    """Whether a binding's program answers as the program does."""
    folder = desk.folder / name
    folder.mkdir()
    questions = "".join(f"{case.question}\n" for case in desk.cases)
    started = time.monotonic()
    ran = subprocess.run(
        shlex.split(command), input=questions, stdout=subprocess.PIPE, text=True, check=False, cwd=folder, timeout=600
    )
    why = wrong(desk.cases, ran.stdout.splitlines()) or other_file(desk.cases, desk.folder / "program", folder)
    if ran.returncode:
        why = f"status {ran.returncode}; {why}"
    print(f"{name}: {why or f'the same, in {time.monotonic() - started:.1f} seconds'}", flush=True)
    return why is None


def told(cases: Sequence[Case]) -> str:
    """How many questions there are of each kind, and how many answers of each number."""
    kinds = Counter(case.question.split()[0] for case in cases)
    numbers = Counter(int(case.answer.split()[0]) for case in cases)
    queries = sum(case.question.count("|") for case in cases)
    asked = ", ".join(f"{count} {kind}" for kind, count in sorted(kinds.items()))
    return f"{len(cases) + queries} questions: {asked}; answers: {' '.join(str(each) for each in sorted(numbers))}"


def main() -> int:
    words = argparse.ArgumentParser(description="Holds the bindings against the program.")
    words.add_argument("--questions", type=int, default=10000)
    words.add_argument("--seed", type=int, default=random.SystemRandom().randrange(1 << 32))
    words.add_argument("program")
    words.add_argument("bindings", nargs="+", metavar="NAME=COMMAND")
    given = words.parse_args()
    with tempfile.TemporaryDirectory() as folder:
        desk = Desk(given.program, Path(folder), random.Random(given.seed))
        (desk.folder / "program").mkdir()
        desk.gather()
        while len(desk.cases) < given.questions:
            desk.visit()
        print(f"seed {given.seed}, {told(desk.cases)}", flush=True)
        named = [each.partition("=") for each in given.bindings]
        went = [run(name, command, desk) for name, _, command in named]
    return 0 if all(went) else 1


if __name__ == "__main__":
    sys.exit(main())
