#!/usr/bin/env python3
"""Counts the instructions of a verdict by the library for C, and of the same work in the program `clubcard`, which is
Rattle throughout, over a store of one part of the generator's 200,000 entries; of many queries of it at once; and of
opening it and asking the opened one. It needs valgrind (with callgrind_annotate) and cc. Run it at the top of the
repository; FOLDER holds libclubcard.a:

    python3 bench/library.py FOLDER

Instructions, and not times, since they are the same on a machine that does other work. Of the program they are those of
`store_in`, which reads the store part by part, without the reads of the file, and of `Store::verdict`; of the library,
those of the whole export. Beside clubcard_open stands its least time of some, and that of hashlib's SHA-256 of the
store's bytes, which every reader of a store makes.
"""

import hashlib
import os
import re
import subprocess
import sys
import tempfile
import time

from instructions import callgrind, of_functions

sys.path.insert(0, os.path.join(os.path.dirname(os.path.abspath(__file__)), "../tools"))

from program import path_of_program  # noqa: E402

ENTRIES = 200000
QUERIES = 1000
ROUNDS = 20
MOMENT = "1700000000000"

# Opens the store, and asks once by clubcard_query, and QUERIES times by clubcard_ask and by one clubcard_query_each.
# Without more words than the store it opens it some times, and prints the least nanoseconds.
CALLER = """
#include <time.h>
#include "opened.h"
static uint64_t at;
static opened store;
static uint64_t now(void) {
    struct timespec moment;
    clock_gettime(CLOCK_MONOTONIC, &moment);
    return (uint64_t)moment.tv_sec * 1000000000 + (uint64_t)moment.tv_nsec;
}
static uint64_t least_of_opening(void) {
    uint64_t least = UINT64_MAX;
    for (int i = 0; i < ROUNDS; i++) {
        uint64_t before = now();
        clubcard_open(store.file.data, store.file.len, store.index, store.facts.index_len, &store.facts);
        uint64_t took = now() - before;
        if (took < least) least = took;
    }
    return least;
}
static void octets_of(uint8_t *to, const char *text) {
    for (; *text; text += 2) sscanf(text, "%2hhx", to++);
}
int main(int argc, char **argv) {
    size_t count = argc > 5 ? (size_t)atoi(argv[5]) : 0;
    if (open_store(&store, argv[1]) != CLUBCARD_DONE) return 1;
    if (argc == 2) return printf("%llu\\n", (unsigned long long)least_of_opening()) < 0;
    clubcard_one_query *queries = calloc(count + 1, sizeof *queries);
    clubcard_sighting seen;
    octets_of(queries->issuer, argv[2]);
    octets_of(seen.log, argv[3]);
    seen.time = strtoull(argv[4], NULL, 10);
    queries->serial[0] = 5, queries->serial_len = 1, queries->sightings = 1;
    for (size_t i = 1; i < count; i++) queries[i] = queries[0], queries[i].serial[0] = (uint8_t)i;
    mapped lent = store.file;
    puts(clubcard_strerror(clubcard_query(lent.data, lent.len, queries->issuer, queries->serial, 1, &seen, 1, &at)));
    for (size_t i = 0; i < count; i++) {
        clubcard_ask(lent.data, lent.len, store.index, store.facts.index_len, queries[i].issuer, queries[i].serial, 1,
                     &seen, 1);
    }
    return (int)clubcard_query_each(lent.data, lent.len, &seen, 1, queries, count, &at);
}
"""


def seconds_of_sha256(name):
    """The least time of hashlib's SHA-256 of a file's bytes."""
    with open(name, "rb") as file:
        octets = file.read()
    took = []
    for _ in range(ROUNDS):
        before = time.perf_counter()
        hashlib.sha256(octets)
        took.append(time.perf_counter() - before)
    return min(took)


def said(command):
    """What a command prints."""
    return subprocess.run(command, stdout=subprocess.PIPE, check=True, text=True).stdout


def instructions(work, command):
    """The instructions of each function of a run, with those of what it calls, and what the run printed."""
    profile = os.path.join(work, "profile")
    said_by_it, _ = callgrind(command, profile)
    return of_functions(profile, True), said_by_it


def main():
    top, library, program = os.getcwd(), os.path.abspath(sys.argv[1]), path_of_program()
    with tempfile.TemporaryDirectory() as work:
        names = ("job", "part", "ledger", "store", "caller.c", "caller")
        path = {name: os.path.join(work, name) for name in names}
        said([program, "sample", "1", str(ENTRIES), path["job"]])
        said([program, "snapshot", path["job"], path["part"], path["ledger"], "1"])
        said([program, "start", path["part"], path["store"]])
        shown = said([program, "show", path["part"]])
        issuer = re.search(r"^issuer (\S+) (?:mixed|sharded)", shown, re.MULTILINE).group(1)
        log = re.search(r"^range (\S+)", shown, re.MULTILINE).group(1)
        with open(path["caller.c"], "w", encoding="ascii") as source:
            source.write(CALLER)
        include = "-I" + os.path.join(top, "bindings/c")
        built = ["-o", path["caller"], path["caller.c"], library + "/libclubcard.a"]
        subprocess.run(["cc", "-O2", "-D_DEFAULT_SOURCE", f"-DROUNDS={ROUNDS}", include] + built, check=True)
        asked = [path["store"], issuer, log, MOMENT]
        by_library, words = instructions(work, [path["caller"]] + asked + [str(QUERIES)])
        by_program, line = instructions(work, [program, "query", path["store"], issuer, "05", log, MOMENT])
        assert words == line, (words, line)
        rattle = (
            by_program["input_core::stores::store_in"]
            - by_program["real_edge::ahead::read_through"]
            + by_program["store_core::store::Store::says"]
        )
        one, many = by_library["clubcard_query"], by_library["clubcard_query_each"]
        print(f"a store of {os.path.getsize(path['store'])} bytes: {line}")
        print(f"in the program: {rattle} instructions")
        print(f"clubcard_query: {one}, {one / rattle:.2f} of the program's")
        each = many / QUERIES
        print(f"clubcard_query_each, {QUERIES} queries: {many}, {each:.0f} a query, {each / one:.3f} of clubcard_query")
        opening, asking = by_library["clubcard_open"], by_library["clubcard_ask"] / QUERIES
        print(f"clubcard_open: {opening}, {opening / one:.2f} of clubcard_query; clubcard_ask: {asking:.0f} a query")
        opened, digested = int(said([path["caller"], path["store"]])) / 1e9, seconds_of_sha256(path["store"])
        print(
            f"clubcard_open: {opened * 1e6:.0f} us, {opened / digested:.2f} of hashlib's SHA-256 of the store's bytes"
        )


if __name__ == "__main__":
    main()
