#!/usr/bin/env python3
"""What opening a store takes beside the SHA-256 of its bytes, what a verdict of the opened store takes beside the
digests that it must make (of rows and shards) and beside plain Rust that holds the store decoded
(bench/opened_reference.rs, built here with rustc), and how many calls of the heap both make, by the library for C. The
stores are the longest one, one of 65,535 mixed blocks, one of 64 parts, one of blocks that are cut into shards, and
that of the generator's million, whose blocks are cut too. Serials have 16 octets, as most of the web's, so that each
digest is one of two blocks; the mixed blocks are asked about serials of 12 octets too, where it is one of one block.
Run it at the top of the repository; FOLDER holds libclubcard.a:

    python3 bench/opened.py FOLDER [TURNS [PROGRAM]]

Instructions are those of callgrind. Times are the least of so many turns (30), in which the library, plain Rust and the
digests alone, by the library's own function for rows, take the same hundred questions one after the other, in one
process: among the other 2,100 questions, and then again, so that what they read is in the nearest cache. The digests of
a verdict are each row and shard that a part asks for; one that several parts ask for is made once. PROGRAM makes the
generator's store (the one that `./clubcard` runs). The status is 1 where a call of the heap is made; where the two
answer otherwise, the script ends there.
"""

import hashlib
import os
import subprocess
import sys
import tempfile
from dataclasses import dataclass
from typing import Iterator

from instructions import callgrind, of_functions
from parts import T, issuers, mixed_leaf, plain, sealed, sharded

sys.path.insert(0, os.path.join(os.path.dirname(os.path.abspath(__file__)), "../tools"))

from program import path_of_program  # noqa: E402

ASKS = 2000
MILLION = 1000000
NUMBER = 7  # of the generator's job
# The library's function that draws a row, and the name by which bench/opened_reference.rs calls it.
DRAWN, ROW = "equation_core::sha256_rows::RowBits::drawn", "library_row"
BLOCKS = "sha2::block256::Core256::update"
NAMES = ["not covered", "not enrolled", "good", "revoked"]
HEAP = ["malloc", "calloc", "realloc", "free"]

# Opens the store of a file, and asks each question of another one, whose records are `question`. With a third word it
# prints how many calls of the heap were made meanwhile, and how many clubcard_query makes, which does take memory.
CALLER = """
#include "opened.h"
typedef struct question {
    uint8_t issuer[32], serial[32];
    uint64_t serial_len;
    clubcard_sighting seen;
} question;
static unsigned calls;
void *__real_malloc(size_t size);
void *__real_calloc(size_t count, size_t size);
void *__real_realloc(void *old, size_t size);
void __real_free(void *old);
void *__wrap_malloc(size_t size) { return calls++, __real_malloc(size); }
void *__wrap_calloc(size_t count, size_t size) { return calls++, __real_calloc(count, size); }
void *__wrap_realloc(void *old, size_t size) { return calls++, __real_realloc(old, size); }
void __wrap_free(void *old) { calls++, __real_free(old); }
int main(int argc, char **argv) {
    opened store;
    mapped asked = map_file(argv[2]), file;
    const question *questions = (const question *)asked.data;
    uint64_t at;
    if (open_store(&store, argv[1]) != CLUBCARD_DONE) return 1;
    file = store.file, calls = 0;
    clubcard_open(file.data, file.len, store.index, store.facts.index_len, &store.facts);
    for (size_t i = 0; i < asked.len / sizeof *questions; i++) {
        const question *it = &questions[i];
        clubcard_ask(file.data, file.len, store.index, store.facts.index_len, it->issuer, it->serial, it->serial_len,
                     &it->seen, 1);
    }
    if (argc < 4) return 0;
    unsigned made = calls;
    calls = 0;
    clubcard_query(file.data, file.len, questions->issuer, questions->serial, questions->serial_len,
                   &questions->seen, 1, &at);
    return printf("%u %u\\n", made, calls) < 0;
}
"""


@dataclass
class Sample:
    """A store, and what is asked of it: of each issuer's certificate by its serial, which the log saw at T."""

    name: str
    octets: bytes
    log: bytes
    asked: list[tuple[bytes, bytes]]

    def questions(self) -> bytes:
        return b"".join(record(issuer, serial, self.log) for issuer, serial in self.asked)

    def others(self) -> bytes:
        """Some by a log that nothing covers, and of an issuer that no part has."""
        uncovered = [record(issuer, serial, bytes(32)) for issuer, serial in self.asked[:100]]
        unenrolled = [record(hashlib.sha256(serial).digest(), serial, self.log) for _, serial in self.asked[:100]]
        return b"".join(uncovered + unenrolled)


def record(issuer: bytes, serial: bytes, log: bytes) -> bytes:
    """A question, as the programs read it."""
    numbers = len(serial).to_bytes(8, "little"), T.to_bytes(8, "little")
    return issuer + serial.ljust(32, b"\0") + numbers[0] + log + numbers[1]


def spread(place: int) -> int:
    """A number of 32 bits for each place."""
    return place * 2654435761 % 2**32


def delta(number: int, parent: bytes, blocks: list[bytes]) -> bytes:
    """The part of this number of a chain: a range, and these blocks."""
    kind = int(number > 1)
    part = b"CLUBCARD" + bytes([1, kind]) + number.to_bytes(8, "big") + parent + (1).to_bytes(2, "big")
    part += (1).to_bytes(32, "big") + T.to_bytes(8, "big") + (T + 1000).to_bytes(8, "big")
    return sealed(part + len(blocks).to_bytes(4, "big") + b"".join(blocks))


def store(parts: list[bytes]) -> bytes:
    return b"CLUBSTOR" + bytes([1, len(parts)]) + b"".join(parts)


def chain(length: int, count: int) -> bytes:
    """A store of so many parts, each with so many mixed blocks."""
    parts: list[bytes] = []
    for number in range(1, length + 1):
        parent = parts[-1][-32:] if parts else bytes(32)
        parts.append(delta(number, parent, [key + mixed_leaf(100) for key in issuers(count)]))
    return store(parts)


def made(name: str, octets: bytes, keys: list[bytes], length: int = 16) -> Sample:
    """A store of made parts, whose planes are zeros, asked about serials of so many octets."""
    numbers = [spread(place) for place in range(ASKS)]
    asked = [(keys[it % len(keys)], (b"\1" + it.to_bytes(4, "little")).ljust(length, b"\0")) for it in numbers]
    return Sample(name, octets, (1).to_bytes(32, "big"), asked)


def generated(program: str, work: str) -> Sample:
    """The store of a job of the generator, asked about its certificates (docs/FORMATS.md has how they are made)."""
    job, part, ledger, store_path = (os.path.join(work, name) for name in ("job", "part", "ledger", "generated"))
    commands = [["sample", str(NUMBER), str(MILLION), job], ["snapshot", job, part, ledger, "1"]]
    for command in commands + [["start", part, store_path]]:
        subprocess.run([program, *command], stdout=subprocess.DEVNULL, check=True)
    with open(store_path, "rb") as file:
        octets = file.read()
    for path in (job, part, ledger, store_path):
        os.remove(path)
    number = NUMBER.to_bytes(8, "big")
    keys = [hashlib.sha256(b"CCISSUER" + number + bytes([j])).digest() for j in range(4)]
    entries = [spread(place) % MILLION for place in range(ASKS)]
    serials = [b"\1" + hashlib.sha256(b"CCSAMPLE" + number + i.to_bytes(4, "big")).digest()[:15] for i in entries]
    asked = [(keys[i % 4], serial) for i, serial in zip(entries, serials)]
    return Sample("the generator's million", octets, hashlib.sha256(b"CCLOG" + number).digest(), asked)


def samples(program: str, work: str) -> Iterator[Sample]:
    yield made("65,535 plain blocks", store([plain(65535)]), issuers(65535))
    mixed = store([delta(1, bytes(32), [key + mixed_leaf(1) for key in issuers(65535)])])
    yield made("65,535 mixed blocks", mixed, issuers(65535))
    yield made("65,535 mixed blocks, short serials", mixed, issuers(65535), 12)
    yield made("64 parts of 500 mixed blocks", chain(64, 500), issuers(500))
    yield made("20 blocks of 32 shards", store([sharded(20, 5, 18000)]), issuers(20))
    yield generated(program, work)


class Bench:
    """The programs, built in a folder, and the files of one store at a time."""

    def __init__(self, work: str, library: str) -> None:
        self.work = work
        self.caller, self.reference = os.path.join(work, "caller"), os.path.join(work, "opened_reference")
        with open(self.caller + ".c", "w", encoding="ascii") as source:
            source.write(CALLER)
        wrapped = ["-Wl," + ",".join("--wrap=" + name for name in HEAP)]
        built = ["-o", self.caller, self.caller + ".c", library + "/libclubcard.a", *wrapped]
        subprocess.run(["cc", "-O2", "-D_DEFAULT_SOURCE", "-Ibindings/c", *built], check=True)
        self.has_digests = self.build_reference(library)

    def build_reference(self, library: str) -> bool:
        """With the library's own function for rows, where it has it under this name, and whether it has."""
        names = [f"--redefine-sym={DRAWN}={ROW}", f"--globalize-symbol={ROW}"]
        subprocess.run(["objcopy", *names, library + "/libclubcard.a", self.path("libclubcard.a")], check=True)
        built = ["rustc", "--edition", "2021", "-O", "bench/opened_reference.rs", "-o", self.reference]
        built += ["-L", "native=" + self.work, "-l", "static=clubcard"]
        if subprocess.run([*built, "--cfg", "digests"], stderr=subprocess.DEVNULL, check=False).returncode == 0:
            return True
        print("the library has no function for rows under the name that this script knows")
        subprocess.run(built, check=True)
        return False

    def path(self, name: str) -> str:
        return os.path.join(self.work, name)

    def write(self, sample: Sample) -> None:
        files = {"store": sample.octets, "asked": sample.questions(), "others": sample.others()}
        for name, content in files.items():
            with open(self.path(name), "wb") as file:
                file.write(content)

    def counts(self, command: list[str]) -> dict[str, int]:
        """The instructions of each function of a run, with those that it calls."""
        callgrind(command, self.path("profile"))
        return of_functions(self.path("profile"), True)

    def instructions(self) -> str:
        """Of opening beside the store's digest, and of verdicts beside their digests and beside plain Rust."""
        opened = self.counts([self.caller, self.path("store"), "/dev/null"])
        ours = self.counts([self.caller, self.path("store"), self.path("asked")])
        theirs = self.counts([self.reference, "count", self.path("store"), self.path("asked")])
        digests = theirs["opened_reference::all_digests"] if ROW in theirs else 0
        asked, plain_rust = ours["clubcard_ask"], theirs["opened_reference::all_by_plain_rust"]
        opening = f"open {opened['clubcard_open'] / opened[BLOCKS]:.2f} of its SHA-256"
        beside = f"{asked / digests:.2f} of its digests" if digests else "no digest"
        return (
            f"{opening}; ask {asked / ASKS:.0f}, {beside}, {asked / plain_rust:.2f} of plain Rust"
            f" ({plain_rust / ASKS:.0f})"
        )

    def times(self, turns: int) -> str:
        """The same by time, and how many answers there were of each kind."""
        words = ["turns", self.path("store"), str(turns), self.path("asked"), self.path("others")]
        run = subprocess.run([self.reference, *words], stdout=subprocess.PIPE, check=True, text=True)
        opening, first, second = run.stdout.splitlines()
        made, distinct, digests, *asked = map(float, first.split()[4:])
        lines = [f"open {int(opening) / 1e3:.0f} us; {made:.2f} digests, {distinct:.2f} distinct, {digests:.0f} ns"]
        for way, ours, plain_rust in zip(("among others", "again"), asked[::2], asked[1::2]):
            beside = f"{ours / digests:.2f} of its digests, " if made and self.has_digests else ""
            lines.append(
                f"{way}: ask {ours:.0f} ns, {beside}{ours / plain_rust:.2f} of plain Rust ({plain_rust:.0f} ns)"
            )
        answers = zip(first.split(), second.split(), NAMES)
        lines.append("answers: " + ", ".join(f"{int(one) + int(other)} {name}" for one, other, name in answers))
        return "\n  ".join(lines)

    def heap(self) -> tuple[str, bool]:
        """How many calls of the heap there were in opening and verdicts, and whether there were none."""
        command = [self.caller, self.path("store"), self.path("asked"), "heap"]
        run = subprocess.run(command, stdout=subprocess.PIPE, check=True, text=True)
        opened, queried = map(int, run.stdout.split())
        if queried == 0:
            return "clubcard_query makes no call either, so that nothing is counted", False
        return ("none" if opened == 0 else f"{opened} calls"), opened == 0


def main() -> None:
    library = os.path.abspath(sys.argv[1])
    turns = int(sys.argv[2]) if len(sys.argv) > 2 else 30
    program = sys.argv[3] if len(sys.argv) > 3 else path_of_program()
    is_none = True
    with open(library + "/libclubcard.a", "rb") as file:
        print(f"libclubcard.a {hashlib.file_digest(file, 'sha256').hexdigest()[:12]}")
    with tempfile.TemporaryDirectory() as work:
        bench = Bench(work, library)
        for sample in samples(program, work):
            bench.write(sample)
            print(f"{sample.name}, {len(sample.octets)} bytes ({hashlib.sha256(sample.octets).hexdigest()[:8]}):")
            print(f"  instructions: {bench.instructions()}", flush=True)
            print(f"  times: {bench.times(turns)}")
            heap, was_none = bench.heap()
            print(f"  heap: {heap}", flush=True)
            is_none = is_none and was_none
    sys.exit(0 if is_none else 1)


if __name__ == "__main__":
    main()
