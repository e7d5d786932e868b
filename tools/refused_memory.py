#!/usr/bin/env python3
"""Refuses each allocation of a run in turn, until the run makes no allocation of that number.

    tools/refused_memory.py [PROGRAM]
    tools/refused_memory.py --toolchain NUMBER ..

The runs are `delta` of a job with a late entry, `rehearse` of three jobs with six queries, and the other commands over
the same files; names of outputs hold other bytes before. What each must come to is worked out by tools/reference.py.
Each run has to end in one of these ways, or the script says which didn't and ends with status 1:

    whole        status 0, the lines, and each output
    no memory    status 70, nothing printed, and no file changed
    read fault   status 8, its line, and no file changed
    write fault  status 9, its line, the outputs before that one whole, that one as before or a front of its bytes, and
                 those behind it as before

PROGRAM is the program that `./clubcard` runs, if left out. Its malloc and realloc are those of a library that is made
here by cc and loaded before the C library. With --toolchain only these allocations of the first two runs are refused,
by `rt try --fail-alloc`, which compiles the whole program anew for each.
"""

import base64
import collections
import json
import os
import subprocess
import sys
import tempfile

from program import path_of_program
from reference import Base, T, History, Job, at_place, ident, place, queries_bytes, sample, store, text_of, verdict
from reference import without
from three_jobs import JOBS, K1, LA, QUERIES

SHIM = r"""
#define _GNU_SOURCE
#include <dlfcn.h>
#include <errno.h>
#include <fcntl.h>
#include <stdlib.h>
#include <unistd.h>

static long calls;

/* Whether this is the call to be refused; then the file REFUSED is made. */
static int refuses(void) {
    const char *number = getenv("REFUSE"), *mark = getenv("REFUSED");
    if (!number || !mark || __atomic_add_fetch(&calls, 1, __ATOMIC_SEQ_CST) != atol(number))
        return 0;
    close(open(mark, O_CREAT | O_WRONLY, 0600));
    errno = ENOMEM;
    return 1;
}

void *malloc(size_t size) {
    static void *(*real)(size_t);
    if (!real)
        real = (void *(*)(size_t))dlsym(RTLD_NEXT, "malloc");
    return refuses() ? NULL : real(size);
}

void *realloc(void *kept, size_t size) {
    static void *(*real)(void *, size_t);
    if (!real)
        real = (void *(*)(void *, size_t))dlsym(RTLD_NEXT, "realloc");
    return refuses() ? NULL : real(kept, size);
}
"""

CRATE = os.path.join(os.path.dirname(os.path.abspath(__file__)), "..", "crates", "clubcard")
MOST = 100_000


class Run:
    """Words, in which FOLDER/ stands before each name; what they print, and what they leave in their outputs."""

    def __init__(self, words, text, outputs):
        self.words, self.text, self.outputs = words, text, outputs


def files_and_runs():
    history = History(JOBS)
    parts = history.parts()
    reports = [history.report(place) for place in range(3)]
    answers = [verdict(parts, *query) for query in QUERIES]
    made, made_line = sample(7, 1)
    base = Base(History(JOBS[:1]), T)
    without_one = Base(History(JOBS[:1]), T, without([K1]))
    split = Base(History(JOBS[:1]), T, at_place("identity", 2, 1))
    files = {
        "J0": JOBS[0].bytes(),
        "J1": JOBS[1].bytes(),
        "J2": JOBS[2].bytes(),
        "Q": queries_bytes(QUERIES),
        "L": history.ledger(0).bytes,
        "P0": parts[0].bytes,
        "P1": parts[1].bytes,
        "S": store(parts[:1]),
    }
    runs = [
        Run("delta /J1 /L /X /Y 1", reports[1:2], {"X": parts[1].bytes, "Y": history.ledger(1).bytes}),
        Run("rehearse /Q 1 /J0 /J1 /J2", reports + answers, {}),
        Run("snapshot /J0 /X /Y 1", reports[:1], {"X": parts[0].bytes, "Y": history.ledger(0).bytes}),
        Run(f"rebase /L {T} /X /Y 1", [base.line], {"X": base.part.bytes, "Y": base.ledger.bytes}),
        Run(
            f"rebase-without /L {T} /X /Y 1 {K1.hex()}",
            [without_one.line],
            {"X": without_one.part.bytes, "Y": without_one.ledger.bytes},
        ),
        Run(f"split /L {T} identity 2 1 /X /Y 1", [split.line], {"X": split.part.bytes, "Y": split.ledger.bytes}),
        Run("start /P0 /X", ["store parts 1 epoch 1"], {"X": store(parts[:1])}),
        Run("install /S /P1 /X", ["store parts 2 epoch 2"], {"X": store(parts[:2])}),
        Run(f"query /S {K1.hex()} 05 {LA.hex()} {T}", ["good"], {}),
        Run("check /P1", [f"part delta epoch 2 ranges 1 issuers 1 bytes {len(parts[1].bytes)}"], {}),
        Run("show /P1", parts[1].shown().splitlines(), {}),
        Run("sample 7 1 /X", made_line.splitlines(), {"X": made}),
    ]
    more, others = runs_of_pieces(JOBS[1])
    return files | more, runs + others


def page_of(entries):
    """A log's page of these entries."""
    items = [{"leaf_input": entry.leaf, "extra_data": entry.extra} for entry in entries]
    spelled = [{key: base64.b64encode(octets).decode() for key, octets in item.items()} for item in items]
    return json.dumps({"entries": spelled}).encode()


def runs_of_pieces(job):
    """Files that a job of one log is made of, and the runs that make it of them, or cut it."""
    head = Job(job.epoch, job.moment, job.ranges, job.crls, []).bytes()
    pieces = [Job(job.epoch, job.moment, [], [], [entry]).bytes() for entry in job.entries]
    cut = [Job(job.epoch, job.moment, job.ranges, job.crls, []) for _ in range(2)]
    for entry in job.entries:
        cut[place(entry.id, 2)].entries.append(entry)
    whole, count = job.bytes(), len(job.entries)
    files = {"H": head, "A": page_of(job.entries), **{f"M{at}": piece for at, piece in enumerate(pieces)}}
    made = f"entries {count} bytes {len(whole)}"
    names = " ".join(f"/M{at}" for at in range(count))
    runs = [
        Run(f"gather /H {job.entries[0].log.hex()} /X /A", [f"gather pages 1 {made}"], {"X": whole}),
        Run(f"merge /H /X {names}", [f"merge pieces {count} {made}"], {"X": whole}),
        Run("cut identity /J1 /X /Y", [f"cut pieces 2 {made}"], {"X": cut[0].bytes(), "Y": cut[1].bytes()}),
        Run(f"place identity {K1.hex()} 05 16", [f"place {place(ident(K1, bytes([5])), 16)} of 16"], {}),
    ]
    return files, runs


def put(folder, files):
    for name, data in files.items():
        with open(os.path.join(folder, name), "wb") as file:
            file.write(data)


def held(folder):
    found = {}
    for name in os.listdir(folder):
        with open(os.path.join(folder, name), "rb") as file:
            found[name] = file.read()
    return found


def kind_of(run, folder, before, status, text):
    """In which of its ways the run ended, or None."""
    after = held(folder)
    changed = {name for name in before | after if before.get(name) != after.get(name)}
    if status == 0 and text == text_of(run.text):
        return "whole" if after == before | run.outputs else None
    if status == 70:
        return "no memory" if not text and not changed else None
    if status == 8:
        names = [f"read-fault {word}\n" for word in named(run, folder)]
        return "read fault" if text in names and not changed else None
    for name in run.outputs if status == 9 else []:
        if text == f"write-fault {os.path.join(folder, name)}\n":
            whole = after[name] in (before[name], run.outputs[name][: len(after[name])])
            return "write fault" if whole and changed <= {name} else None
        before = before | {name: run.outputs[name]}
        changed = {name for name in before if before[name] != after.get(name)}
    return None


def named(run, folder):
    """The words, with the folder before each name."""
    return [folder + word if word.startswith("/") else word for word in run.words.split()]


def call(words, environment=None, folder=None):
    done = subprocess.run(words, stdout=subprocess.PIPE, stderr=subprocess.DEVNULL, env=environment, cwd=folder)
    return done.returncode, done.stdout.decode()


def tried(run, files, folder, words, environment=None, cwd=None):
    """In which of its ways the run ended, called by these words."""
    before = files | dict.fromkeys(run.outputs, b"before")
    for name in os.listdir(folder):
        os.remove(os.path.join(folder, name))
    put(folder, before)
    status, text = call(words + named(run, folder), environment, cwd)
    kind = kind_of(run, folder, before, status, text)
    if kind is None:
        sys.exit(f"refused_memory: {run.words}: status {status}, printed {text!r}, files {sorted(held(folder))}")
    return kind


def in_turn(run, files, top, program):
    """How often the run ended in which way, each allocation refused in turn, and how it ends where none is."""
    folder, mark = os.path.join(top, "files"), os.path.join(top, "mark")
    kinds = collections.Counter()
    for number in range(1, MOST):
        environment = {"LD_PRELOAD": os.path.join(top, "shim.so"), "REFUSE": str(number), "REFUSED": mark}
        kind = tried(run, files, folder, [program], environment)
        if not os.path.exists(mark):
            return kinds, kind
        os.remove(mark)
        kinds[kind] += 1
    sys.exit(f"refused_memory: {run.words}: {MOST} allocations and more")


def build_shim(top):
    source = os.path.join(top, "shim.c")
    with open(source, "w", encoding="ascii") as file:
        file.write(SHIM)
    subprocess.run(["cc", "-O1", "-shared", "-fPIC", "-o", os.path.join(top, "shim.so"), source, "-ldl"], check=True)


def by_toolchain(numbers, files, runs, top):
    for run in runs[:2]:
        for number in numbers:
            words = ["rt", "try", "--fail-alloc", number, "--"]
            kind = tried(run, files, os.path.join(top, "files"), words, None, CRATE)
            print(f"{run.words.split()[0]}: allocation {number} refused by rt try: {kind}", flush=True)


def main():
    files, runs = files_and_runs()
    with tempfile.TemporaryDirectory() as top:
        os.mkdir(os.path.join(top, "files"))
        if sys.argv[1:2] == ["--toolchain"]:
            by_toolchain(sys.argv[2:], files, runs, top)
            return
        build_shim(top)
        program = os.path.abspath(sys.argv[1]) if len(sys.argv) == 2 else path_of_program()
        for run in runs:
            kinds, last = in_turn(run, files, top, program)
            if last != "whole":
                sys.exit(f"refused_memory: {run.words}: {last} where no allocation was refused")
            ends = ", ".join(f"{kind} {count}" for kind, count in sorted(kinds.items()))
            print(f"{run.words.split()[0]}: {kinds.total()} allocations refused in turn: {ends or 'none'}; then whole")


main()
