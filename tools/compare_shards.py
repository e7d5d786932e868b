#!/usr/bin/env python3
"""Holds the program against tools/reference.py on parts whose blocks are cut into shards.

    tools/compare_shards.py [SEED]

The reference publishes two jobs, the first with 40,000 entries of one issuer and with some of four others, and cuts the
shards of the large one: into two parts in which it is cut, and into a first part with plain blocks and a second one in
which it is cut. The program must tell the same of each part (`check`, `show`), keep them in a store (`start`,
`install`), and answer for a thousand identities what the history says (`query`). It must do so too for a part whose
issuers are cut by each shift there is; and of such parts with bytes that are damaged, with the trailer mended or not,
it must name the fault that the layout names. Then it publishes the two jobs itself (`snapshot`, `delta`), and each part
and ledger must be that of the reference, in the format in which jobs are taken.

It runs the program that `./clubcard` runs, prints a line, and ends with status 0 exactly where nothing differs; where
something does, it says what. It takes about a minute.
"""

import functools
import os
import random
import sys
import tempfile

from compare_histories import ask, damaged, held, put, run, same
from reference import (
    CURRENT,
    PLAIN,
    SHARDED,
    Crl,
    Entry,
    History,
    Job,
    Part,
    T,
    be,
    build_leaf,
    build_sharded,
    ident,
    sha,
    shift_in,
    store,
    verdict,
)
from reference_files import check, show

TOP = os.path.join(os.path.dirname(os.path.abspath(__file__)), "..")
LOG = b"\xaa" * 32
LARGE, SMALL, CLEAN, WHOLE, LATER = (bytes([octet]) * 32 for octet in (0x11, 0x22, 0x33, 0x44, 0x55))


# ---------- sizes and rows ----------
def compare_shifts():
    """How many bits tell the shards, on both sides of each step."""
    sizes = {1: 0, 32767: 0, 32768: 1, 50000: 1, 65535: 1, 65536: 2, 131072: 3, 4194303: 7, 4194304: 8}
    same("shifts", {size: shift_in(SHARDED, size, 1) for size in sizes}, sizes)
    edges = [shift_in(SHARDED, 50000, 0), shift_in(SHARDED, 50000, 50000), shift_in(PLAIN, 50000, 1)]
    same("shifts of what isn't cut", edges, [0, 0, 0])


def mended(data):
    """The bytes with the trailer that belongs to those before it."""
    return data[:-32] + sha(data[:-32])


def with_octet(data, at, octet):
    return data[:at] + bytes([octet]) + data[at + 1 :]


def rows():
    """Parts that were made by hand from the one that the repository ships, and what `check` tells of each."""
    with open(os.path.join(TOP, "crates/clubcard/data/one_revoked.store"), "rb") as file:
        shipped = file.read()[10:]
    second = with_octet(shipped, 8, 2)
    cut = mended(second[:136] + bytes.fromhex("03010101") + shipped[-32:])
    return [
        (cut, "part snapshot epoch 1 ranges 1 issuers 1 bytes 172"),
        (mended(second), "layout 137 part.sharded value"),
        (second, "layout 137 part.sharded value"),
        (mended(with_octet(cut, 8, 1)), "layout 136 block.mode value"),
        (mended(with_octet(cut, 8, 3)), "layout 8 part.version value"),
        (mended(with_octet(cut, 136, 4)), "layout 136 block.mode value"),
        (mended(with_octet(cut, 137, 0)), "layout 137 block.shift value"),
        (mended(with_octet(cut, 137, 9)), "layout 137 block.shift value"),
        (mended(with_octet(cut, 138, 3)), "layout 138 shard.mode value"),
        (mended(with_octet(cut, 139, 3)), "layout 139 shard.mode value"),
        (with_octet(cut, 139, 0), "layout 140 part.trailer digest"),
        (cut[:137], "layout 137 block.shift short"),
        (cut[:139], "layout 139 shard.mode short"),
        (second[:137], "layout 137 part.sharded value"),
        (cut[:140], "layout 140 part.trailer short"),
        (cut + b"\0", "layout 172 end value"),
    ]


def compare_told(data, at):
    """What is told of the bytes as a part. Gives the line of `check`."""
    put(at("part"), data)
    status, line = check(at("part"), data)
    same("check", run("check", at("part")), (status, line))
    same("show", run("show", at("part")), show(at("part"), data))
    if status != 0:
        same("start", run("start", at("part"), at("none")), (status, line))
        put(at("store"), b"CLUBSTOR\1\1" + data)
        _, place, field, why, _ = line.split(" ")
        in_store = f"layout {int(place) + 10} {field} {why} {at('store')}\n"
        same("query", ask(at("store"), ident(LARGE, b"\5"), [(LOG, T)]), (status, in_store))
    return line


def compare_rows(at):
    for data, told in rows():
        same("row", compare_told(data, at), f"{told} {at('part')}\n" if told.startswith("layout") else f"{told}\n")
    put(at("part"), rows()[0][0])
    same("start", run("start", at("part"), at("store")), (0, "store parts 1 epoch 1\n"))
    for serial in (b"\5", b"\7"):
        same("query", ask(at("store"), ident(LARGE, serial), [(LOG, T)]), (0, "revoked\n"))


# ---------- each shift ----------
def random_serials(rng, count):
    return [b"\1" + be(rng.getrandbits(120), 15) for _ in range(count)]


def each_shift(rng):
    """A part whose issuers are cut by each shift there is, and the last one not, and the flags of its identities. The
    shards of universes so small have leaves of each kind."""
    blocks, flags = [], {}
    for place, shift in enumerate([1, 2, 3, 4, 5, 6, 7, 8, None]):
        issuer, weight = bytes([place + 1]) * 32, rng.choice([0.05, 0.5])
        universe = sorted(ident(issuer, serial) for serial in random_serials(rng, 250))
        revoked = {x for x in universe if rng.random() < weight}
        is_cut = shift is not None
        block = build_sharded(issuer, universe, revoked, shift) if is_cut else build_leaf(issuer, universe, revoked)
        blocks.append((issuer, block))
        flags.update((x, x in revoked) for x in universe)
    leaves = [leaf for _, block in blocks[:-1] for leaf in block.leaves]
    kinds = {leaf if isinstance(leaf, str) else leaf.k > 0 for leaf in leaves}
    same("kinds of leaves", kinds, {"none", "all", True, False})
    return Part(0, 7, bytes(32), [(LOG, T, T + 1000)], blocks), flags


def compare_each_shift(rng, at):
    """Gives how many identities were asked."""
    part, flags = each_shift(rng)
    compare_told(part.bytes, at)
    same("start", run("start", at("part"), at("store")), (0, "store parts 1 epoch 7\n"))
    same("store", held(at("store")), store([part]))
    asked = rng.sample(sorted(flags), 400)
    for x in asked:
        wanted = "revoked\n" if flags[x] else "good\n"
        same(f"answer on {x}", ask(at("store"), x, [(LOG, T)]), (0, wanted))
    return len(asked)


def compare_damaged(rng, at):
    """Parts with an octet that is changed, or that are cut or longer. Gives how many. With one range the version stands
    at 8, and the first block's mode, its shift and the mode of its first shard from 136 on."""
    data = each_shift(rng)[0].bytes
    texts = [damaged(rng, data) for _ in range(100)]
    texts += [mended(text) for text in texts]
    texts += [mended(with_octet(data, place, octet)) for place in (8, 136, 137, 138) for octet in range(256)]
    for text in texts:
        compare_told(text, at)
    return len(texts)


# ---------- two jobs ----------
def entries_of(rng, issuer, serials):
    def until():
        return rng.choice([None, T // 1000 + rng.randrange(1000)])

    return [Entry(issuer, serial, LOG, T + rng.randrange(1000), until=until()) for serial in serials]


def random_jobs(rng):
    """Two jobs, as what they say without their format. The second one lists more of the large issuer and brings some of
    it that are new."""
    serials = {LARGE: 40000, SMALL: 300, CLEAN: 20, WHOLE: 10}
    serials = {issuer: random_serials(rng, count) for issuer, count in serials.items()}
    listed = {LARGE: serials[LARGE][:400], SMALL: serials[SMALL][:3], CLEAN: [], WHOLE: serials[WHOLE]}
    first = (1, T, [(LOG, T, T + 1000)], [(issuer, Crl(listed[issuer])) for issuer in listed])
    entries = [entry for issuer in serials for entry in entries_of(rng, issuer, serials[issuer])]
    rng.shuffle(entries)
    new = random_serials(rng, 100)
    crls = [(LARGE, Crl(serials[LARGE][300:900] + new[:10])), (SMALL, Crl(listed[SMALL])), (LATER, Crl([]))]
    later = [Entry(LARGE, serial, LOG, T + 2000) for serial in new] + [Entry(LATER, b"\5", LOG, T + 2000)]
    return [(*first, entries), (2, T, [(LOG, T, T + 2000)], crls, later)]


def history_in(jobs, *formats):
    return History([Job(*job, taken) for job, taken in zip(jobs, formats)])


def compare_history(rng, history, at):
    """Keeps the parts in a store and asks it. Gives how many identities were asked."""
    parts = history.parts()
    for part in parts:
        compare_told(part.bytes, at)
        put(at(f"part{part.kind}"), part.bytes)
    same("start", run("start", at("part0"), at("store0")), (0, "store parts 1 epoch 1\n"))
    same("install", run("install", at("store0"), at("part1"), at("store")), (0, "store parts 2 epoch 2\n"))
    same("store", held(at("store")), store(parts))
    known = sorted(history.identities(1))
    listed = [x for x in known if history.listed(x, 1)]
    asked = [(x, history.sightings(x, 1)) for x in rng.sample(known, 150) + rng.sample(listed, 130)]
    for x, sightings in asked:
        wanted = "revoked\n" if history.listed(x, 1) else "good\n"
        same(f"answer on {x}", ask(at("store"), x, sightings), (0, wanted))
    others = [(ident(LARGE, serial), [(LOG, T + rng.choice([0, 1500, 2001]))]) for serial in random_serials(rng, 20)]
    others += [(ident(b"\x66" * 32, b"\5"), [(LOG, T)]), (ident(LATER, b"\5"), [(LOG, T)])]
    for x, sightings in others:
        same(f"answer on {x}", ask(at("store"), x, sightings), (0, verdict(parts, x, sightings) + "\n"))
    return len(asked) + len(others)


def compare_published(history, at):
    """Publishes the jobs, in the format in which they are taken."""
    first, second = history.members
    put(at("job0"), first.bytes())
    put(at("job1"), second.bytes())
    for workers in "18":
        told = run("snapshot", at("job0"), at("part0"), at("ledger0"), workers)
        same("report of snapshot", told, (0, history.report(0) + "\n"))
        told = run("delta", at("job1"), at("ledger0"), at("part1"), at("ledger1"), workers)
        same("report of delta", told, (0, history.report(1) + "\n"))
        for i, part in enumerate(history.parts()):
            if held(at(f"part{i}")) != part.bytes:
                raise AssertionError(f"part {i} differs in the format {CURRENT} with {workers} workers")
            if held(at(f"ledger{i}")) != history.ledger(i).bytes:
                raise AssertionError(f"ledger {i} differs in the format {CURRENT} with {workers} workers")


def main():
    rng = random.Random(int(sys.argv[1]) if len(sys.argv) > 1 else 1)
    with tempfile.TemporaryDirectory() as folder:
        at = functools.partial(os.path.join, folder)
        try:
            compare_shifts()
            compare_rows(at)
            asked = compare_each_shift(rng, at)
            faults = compare_damaged(rng, at)
            jobs = random_jobs(rng)
            asked += compare_history(rng, history_in(jobs, SHARDED, SHARDED), at)
            asked += compare_history(rng, history_in(jobs, PLAIN, SHARDED), at)
            compare_published(history_in(jobs, CURRENT, CURRENT), at)
        except AssertionError as differs:
            sys.exit(f"differs: {differs}")
    print(f"{asked} queries, {faults} damaged parts, 2 stores, 2 jobs published {CURRENT}: nothing differs")


if __name__ == "__main__":
    main()
