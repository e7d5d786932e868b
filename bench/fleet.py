#!/usr/bin/env python3
"""Times `clubcard merge` of 1, 4, 16 and 64 pieces beside `snapshot` of the same entries, and `gather` of their pages
by four programs at once beside one: by the clock, of processors, and the memory that a program takes at most (by
/usr/bin/time). Then 16 places beside one chain of the same certificates, by issuer and by identity: cutting and
merging, their `snapshot`s one after the other and four at once, and the bytes of all parts, also of deltas that revoke
one certificate more of ten thousand. It prints which program it runs, the one that `./clubcard` runs, or where a path
is given, that one. Run it at the top of the repository, where the folder of temporary files has room for 3 GB:

    python3 bench/fleet.py [RUNS [COUNT [PROGRAM]]]

Each time is the least of so many runs (5), which take turns. The entries are those of `sample 7 COUNT` (1000000); each
job that is merged or gathered must be that one. The places are those of a job of about as many entries of 64 issuers,
the largest of which have a hundred times what the smallest have; the jobs of places must be those that are cut of it.
The limits: `merge` alone, and `cut` and `merge` together, take at most 0.5 of the processor time of `snapshot` with one
worker; `merge` takes as much memory for 64 pieces as for one, within a tenth; four places at once take at most 1.25 of
a quarter of what all take one after the other, by the clock. Where one is passed the status is 1. No output of `merge`
and `cut` is there before, as in the publisher and the fleet, where each is written under a new name.
"""

import base64
import hashlib
import json
import os
import sys
import tempfile
import time
from concurrent.futures import ThreadPoolExecutor
from contextlib import suppress
from subprocess import DEVNULL, Popen, run

from workers import digest, memory, timed

sys.path.insert(0, os.path.join(os.path.dirname(os.path.abspath(__file__)), "../tools"))

from program import path_of_program  # noqa: E402
from sample_reference import crl, digest as sha256  # noqa: E402

PIECES = (1, 4, 16, 64)
MOST_TIME, MOST_MEMORY, MOST_OF_QUARTER = 0.5, 1.1, 1.25
NUMBER, HEADER, RANGE, RECORD, LEAF = "7", 24, 49, 108, 69
"""The generator's number; how many bytes the header of its job has, its range, each entry's record, and each leaf."""
LOG = hashlib.sha256(b"CCLOG" + int(NUMBER).to_bytes(8, "big")).digest()
IN_A_PAGE = 1000
TOGETHER = 4
PLACES, SAMPLES = 16, 16
"""How many places there are, and of how many jobs of the generator the job that is cut is made; each has 0.73 of the
entries of the one before."""


def write(path, *octets):
    with open(path, "wb") as file:
        file.writelines(octets)
    return path


def shares_of(count, many):
    """`count` in so many parts of nearly one size: where each begins and ends."""
    return [(at * count // many, (at + 1) * count // many) for at in range(many)]


class Entries:
    """The job of the generator, its head, and its entries in pieces and in pages."""

    def __init__(self, program, folder, count):
        self.program, self.folder, self.count = program, folder, count
        self.job = os.path.join(folder, "job")
        timed([program, "sample", NUMBER, str(count), self.job])
        with open(self.job, "rb") as file:
            self.octets = file.read()
        self.first = len(self.octets) - 1 - RECORD * count
        self.head = write(os.path.join(folder, "head"), self.octets[: self.first], b"\0")
        self.bare = write(os.path.join(folder, "bare"), self.octets[:HEADER], b"\0")

    def record(self, at):
        return self.octets[self.first + RECORD * at : self.first + RECORD * (at + 1)]

    def pieces(self, many):
        """The files of so many pieces."""
        files = []
        for at, (low, high) in enumerate(shares_of(self.count, many)):
            records = self.octets[self.first + RECORD * low : self.first + RECORD * high]
            files.append(write(f"{self.folder}/{many}.{at}.piece", self.octets[:HEADER], records, b"\0"))
        return files

    def pages(self):
        """The files of all pages, in order."""
        files = []
        for low in range(0, self.count, IN_A_PAGE):
            leaves = [self.record(at)[36 : 36 + LEAF] for at in range(low, min(low + IN_A_PAGE, self.count))]
            items = [{"leaf_input": base64.b64encode(leaf).decode(), "extra_data": ""} for leaf in leaves]
            files.append(write(f"{self.folder}/{low}.page", json.dumps({"entries": items}).encode()))
        return files

    def test(self, path):
        """Stops where a job isn't the generator's."""
        with open(path, "rb") as file:
            if file.read() != self.octets:
                sys.exit(f"{path} isn't the generator's job")


def at_once(commands):
    """The seconds by the clock of commands that run side by side."""
    start = time.monotonic()
    running = [Popen(command, stdout=DEVNULL) for command in commands]
    if any([each.wait() for each in running]):
        sys.exit("a run failed")
    return time.monotonic() - start


def remove(names):
    """Removes the files that are there."""
    for name in names:
        with suppress(FileNotFoundError):
            os.remove(name)


def least(commands, runs):
    """The least seconds of each command by the clock and of processors, in turns, and its memory in KiB."""
    took = {name: [] for name in commands}
    for _ in range(runs):
        for name, command in commands.items():
            remove(command[3:4] if command[1] == "merge" else [])
            took[name].append(timed(command)[:2])
    return {name: (*map(min, zip(*took[name])), memory(command)) for name, command in commands.items()}


def merges(entries, runs):
    """Prints the table of `merge`, and gives whether it keeps to the limits."""
    program, made = entries.program, f"{entries.folder}/merged"
    commands = {
        "snapshot": [program, "snapshot", entries.job, f"{entries.folder}/part", f"{entries.folder}/ledger", "1"]
    }
    for many in PIECES:
        commands[many] = [program, "merge", entries.head, made, *entries.pieces(many)]
        timed(commands[many])
        entries.test(made)
    found = least(commands, runs)
    whole = found.pop("snapshot")
    print("| run | clock | processors | of `snapshot` | most memory |\n|---|---|---|---|---|")
    print(f"| `snapshot`, one worker | {whole[0]:.3f} s | {whole[1]:.3f} s | | {whole[2]} KiB |")
    for many, (clock, spent, kib) in found.items():
        print(f"| `merge`, pieces: {many} | {clock:.3f} s | {spent:.3f} s | {spent / whole[1]:.2f} | {kib} KiB |")
    sizes = [kib for _, _, kib in found.values()]
    return max(spent for _, spent, _ in found.values()) <= MOST_TIME * whole[1] and max(sizes) <= MOST_MEMORY * sizes[0]


def gathers(entries, runs):
    """Prints what `gather` takes by one program, and by some at once."""
    pages, made = entries.pages(), [f"{entries.folder}/{at}.job" for at in range(TOGETHER)]
    gather = lambda head, job, some: [entries.program, "gather", head, LOG.hex(), job, *some]  # noqa: E731
    parts = [pages[low:high] for low, high in shares_of(len(pages), TOGETHER)]
    one = gather(entries.head, f"{entries.folder}/gathered", pages)
    some = [gather(entries.bare, *each) for each in zip(made, parts)]
    times = [(at_once([one]), at_once(some)) for _ in range(runs)]
    entries.test(f"{entries.folder}/gathered")
    timed([entries.program, "merge", entries.head, f"{entries.folder}/merged", *made])
    entries.test(f"{entries.folder}/merged")
    alone, together = map(min, zip(*times))
    spent = min(timed(one)[1] for _ in range(runs))
    print(f"| `gather`, {len(pages)} pages by one | {alone:.3f} s | {spent:.3f} s | | {memory(one)} KiB |")
    print(
        f"| by {TOGETHER} at once, {alone / together:.2f} times as fast | {together:.3f} s"
        f" | | | {memory(some[0])} KiB |"
    )


def newly_listed(at, octets, first):
    """The records of the CRLs of an epoch later, which list one certificate more of ten thousand."""
    count, number = (len(octets) - 1 - first) // RECORD, (100 + at).to_bytes(8, "big")
    for each in range(4):
        places = [place for place in range(each, count, 4) if place // 4 % 10000 == 1]
        text = crl([b"\1" + sha256(b"CCSAMPLE", number, place.to_bytes(4, "big"))[:15] for place in places])
        yield b"\2" + sha256(b"CCISSUER", number, bytes([each])) + len(text).to_bytes(4, "big") + text


class Wide:
    """A job of many issuers, made of jobs of the generator; its head, and its entries in pieces."""

    def __init__(self, program, folder, count):
        self.program, self.folder = program, folder
        shares = [0.73**at for at in range(SAMPLES)]
        samples = [
            self.sample(str(100 + at), max(1, int(count * share / sum(shares)))) for at, share in enumerate(shares)
        ]
        ranges = sorted(octets[HEADER : HEADER + RANGE] for octets, _ in samples)
        header = samples[0][0][:HEADER]
        crls = [octets[HEADER + RANGE : first] for octets, first in samples]
        entries = b"".join(octets[first:-1] for octets, first in samples)
        self.count = len(entries) // RECORD
        self.job = write(f"{folder}/wide", header, *ranges, *crls, entries, b"\0")
        self.head = write(f"{folder}/wide.head", header, *ranges, *crls, b"\0")
        later = header[:8] + (2).to_bytes(8, "big") + header[16:]
        newly = [record for at, (octets, first) in enumerate(samples) for record in newly_listed(at, octets, first)]
        self.later = write(f"{folder}/wide.later", later, *ranges, *newly, b"\0")
        self.pieces = []
        for at, (low, high) in enumerate(shares_of(self.count, TOGETHER)):
            piece = entries[RECORD * low : RECORD * high]
            self.pieces.append(write(f"{folder}/wide.{at}", header, piece, b"\0"))

    def sample(self, number, count):
        """The bytes of a job of the generator, and where its entries begin."""
        made = f"{self.folder}/sample"
        timed([self.program, "sample", number, str(count), made])
        with open(made, "rb") as file:
            octets = file.read()
        return octets, len(octets) - 1 - RECORD * count

    def names(self, by, what):
        """The files of all places."""
        return [f"{self.folder}/{by}.{at}.{what}" for at in range(PLACES)]

    def cut_and_merge(self, by):
        """The commands that make the jobs of all places from the head and the pieces."""
        heads, jobs = self.names(by, "head"), self.names(by, "job")
        cuts = [self.names(by, f"{at}.piece") for at in range(TOGETHER)]
        remove(heads + jobs + sum(cuts, []))
        yield [self.program, "cut", by, self.head, *heads]
        for piece, names in zip(self.pieces, cuts):
            yield [self.program, "cut", by, piece, *names]
        for place, job in enumerate(jobs):
            yield [self.program, "merge", heads[place], job, *(names[place] for names in cuts)]

    def test(self, by):
        """Stops where the jobs of the places aren't those that `cut` makes of the whole."""
        wanted = self.names(by, "wanted")
        timed([self.program, "cut", by, self.job, *wanted])
        for one, other in zip(self.names(by, "job"), wanted):
            if digest(one) != digest(other):
                sys.exit(f"{one} isn't what is cut of the whole")

    def snapshots(self, by):
        """The commands that publish all places, the largest first."""
        jobs, parts, ledgers = (self.names(by, what) for what in ("job", "part", "ledger"))
        found = sorted(zip(jobs, parts, ledgers), key=lambda names: -os.path.getsize(names[0]))
        return [[self.program, "snapshot", *names, "1"] for names in found]

    def bytes_of_parts(self, by):
        """The bytes of all places' snapshots, and of the deltas behind them, and how many certificates these revoke."""
        parts, laters, deltas = (self.names(by, what) for what in ("part", "later", "delta"))
        timed([self.program, "cut", by, self.later, *laters])
        revoked = 0
        for later, ledger, delta in zip(laters, self.names(by, "ledger"), deltas):
            revoked += self.delta(later, ledger, delta)
        return sum(map(os.path.getsize, parts)), sum(map(os.path.getsize, deltas)), revoked

    def delta(self, job, ledger, part):
        """Publishes a delta; how many certificates it revokes."""
        line = timed([self.program, "delta", job, ledger, part, f"{self.folder}/new", "1"])[2].split()
        return int(line[line.index("revoked") + 1])


def by_turns(commands, many):
    """The seconds by the clock of commands of which so many run side by side."""
    start = time.monotonic()
    with ThreadPoolExecutor(many) as threads:
        if any(done.returncode for done in threads.map(lambda command: run(command, stdout=DEVNULL), commands)):
            sys.exit("a run failed")
    return time.monotonic() - start


def at_places(wide, runs):
    """Prints the tables of places, and gives whether they keep to the limits."""
    part, ledger = f"{wide.folder}/part", f"{wide.folder}/ledger"
    whole = [wide.program, "snapshot", wide.job, part, ledger, "1"]
    spent, alone, together, sizes = {"": []}, {}, {}, {}
    for _ in range(runs):
        spent[""].append(timed(whole)[1])
        for by in ("issuer", "identity"):
            spent.setdefault(by, []).append(sum(timed(command)[1] for command in wide.cut_and_merge(by)))
            alone.setdefault(by, []).append(by_turns(wide.snapshots(by), 1))
            together.setdefault(by, []).append(by_turns(wide.snapshots(by), TOGETHER))
    delta = f"{wide.folder}/delta"
    revoked = wide.delta(wide.later, ledger, delta)
    for by in together:
        wide.test(by)
        *sizes[by], revoked_there = wide.bytes_of_parts(by)
        if revoked_there != revoked:
            sys.exit(f"by {by} {revoked_there} are revoked, and {revoked} of the whole")
    one = min(spent.pop(""))
    print(f"\n{PLACES} places, {wide.count} entries. The whole: `snapshot` {one:.3f} s, {os.path.getsize(part)} bytes;")
    print(f"a delta that revokes {revoked}, {os.path.getsize(delta)} bytes.")
    print("| by | `cut`, `merge` | of `snapshot` | `cut`, most memory | one after another", end="")
    print(f" | {TOGETHER} at once | of a share | snapshots | deltas |\n|---|---|---|---|---|---|---|---|---|")
    are_kept = True
    for by, times in spent.items():
        cut, all_in_turn, at_once = min(times), min(alone[by]), min(together[by])
        of_share = min(TOGETHER * some / each for each, some in zip(alone[by], together[by]))
        kib = memory([wide.program, "cut", by, wide.job, *wide.names(by, "wanted")])
        print(f"| {by} | {cut:.3f} s | {cut / one:.2f} | {kib} KiB | {all_in_turn:.3f} s", end="")
        snapshots, deltas = sizes[by]
        print(f" | {at_once:.3f} s | {of_share:.2f} | {snapshots} bytes | {deltas} bytes |", flush=True)
        are_kept = are_kept and cut <= MOST_TIME * one and of_share <= MOST_OF_QUARTER
    return are_kept


def main():
    runs = int(sys.argv[1]) if len(sys.argv) > 1 else 5
    count = int(sys.argv[2]) if len(sys.argv) > 2 else 1000000
    program = sys.argv[3] if len(sys.argv) > 3 else path_of_program()
    print(f"program {program}, {os.cpu_count()} processors, load {os.getloadavg()[0]:.1f}, {count} entries", flush=True)
    with tempfile.TemporaryDirectory() as folder:
        entries = Entries(program, folder, count)
        is_kept = merges(entries, runs)
        gathers(entries, runs)
    with tempfile.TemporaryDirectory() as folder:
        is_kept = at_places(Wide(program, folder, count), runs) and is_kept
    sys.exit(0 if is_kept else "a limit is passed")


if __name__ == "__main__":
    main()
