#!/usr/bin/env python3
"""Holds the program against tools/reference.py on random histories of one to six jobs.

    tools/compare_histories.py [COUNT [SEED]]

For each history: the part, the ledger and the store of each job byte for byte, the lines of `snapshot`, `delta`,
`start` and `install`, and `query` on accepted certificates (the answer must be the history's truth) and on others (it
must be the verdict of the parts). One of the jobs is published behind ledgers without dates too, in both versions, and
is refused behind ledgers that are damaged, with the digest mended or not. Then all jobs in one `rehearse`, with queries
of both kinds; in some histories with a job that is refused among them, or with a damaged query file, and then the line
and the status of the refusal. Then an `audit` of one of the stores by all jobs, or with one among them that is refused.
And a job of `sample`.

Behind one of the jobs the chain is begun anew by `rebase`, by `rebase-without` some issuers, or by `split` with what a
place keeps, at a moment at which some certificates may have expired. It goes on with the jobs behind that one, and is
compared as the history was; in some histories it is itself begun anew behind one of its parts, and so on. The ledgers
without dates, the damaged ones, and for each history a ledger of no history, are begun anew too. Before all histories
stand such chains that were worked out by hand, and ledgers with as many issuers as a part may have, and one more.

It runs the program that `./clubcard` runs, prints a line, and ends with status 0 exactly where nothing differs; where
something does, it says which history and what.
"""

import collections
import functools
import os
import random
import subprocess
import sys
import tempfile

from program import path_of_program
from reference import (
    Base,
    Crl,
    EVERYTHING,
    Entry,
    Job,
    Ledger,
    LedgerItem,
    LedgerPart,
    Refused,
    SHARDED,
    T,
    UNDATED,
    at_place,
    be,
    history_of,
    queries_bytes,
    sample,
    sha,
    store,
    verdict,
    without,
)
from reference_files import JobFile, audit, read_ledger, rebase, rehearse
from three_jobs import ANSWERS, JOBS, K1, K2, LA, QUERIES

PROGRAM = path_of_program()


def run(*words):
    done = subprocess.run([PROGRAM, *words], stdout=subprocess.PIPE, check=False)
    return done.returncode, done.stdout.decode()


def unread_entry(log, issuer):
    """An entry of a type that there isn't."""
    leaf = b"\0\0" + be(T, 8) + b"\0\2" + issuer + bytes.fromhex("0000053003020105") + b"\0\0"
    return Entry(None, None, log, 0, leaf=leaf)


def grow(rng, logs, ranges):
    """Lets the ranges begin, and grow, for some of the logs."""
    for log in logs:
        if rng.random() < 0.7 or not ranges:
            first, last = ranges.get(log, (T + rng.randint(0, 50), T + rng.randint(50, 100)))
            ranges[log] = (first - rng.choice([0, 0, 10]), last + rng.choice([0, 10, 100]))


def random_crls(rng, issuers, serials, weight):
    crls = []
    for issuer in issuers:
        for _ in range(rng.choice([0, 1, 1, 1, 1, 2])):
            listed = [serial for serial in serials if rng.random() < weight]
            rng.shuffle(listed)
            crls.append((issuer, Crl(listed, rng.choice([None, None, None, None, "at", "before"]))))
    rng.shuffle(crls)
    return crls


def random_entries(rng, logs, issuers, serials, ranges):
    entries = []
    for _ in range(rng.randint(0, rng.choice([5, 30, 150]))):
        log = rng.choice(logs)
        first, last = ranges.get(log, (T, T + 100))
        if rng.random() < 0.03:
            entries.append(unread_entry(log, issuers[0]))
        else:
            time, (until, behind) = rng.randint(first - 5, last + 5), random_date(rng)
            entries.append(Entry(rng.choice(issuers), rng.choice(serials), log, time, until=until, behind=behind))
    return entries


def random_date(rng):
    """A date, one of few or in the years 1 to 9999; or none, and what stands in place of one."""
    if rng.random() < 0.1:
        return None, rng.choice(UNDATED)
    return rng.choice([T // 1000 + rng.randint(-5, 5), rng.randint(-62135596800, 253402300799)]), b""


def random_octets(rng, length):
    return bytes(rng.randrange(256) for _ in range(length))


def random_history(rng):
    logs = sorted({bytes([rng.randrange(256)]) * 32 for _ in range(rng.randint(1, 3))})
    issuers = [bytes([x]) * 32 for x in rng.sample(range(256), rng.randint(1, 4))]
    count = rng.randint(3, rng.choice([6, 20, 60]))
    serials = [random_octets(rng, rng.choice([1, 1, 2, 5, 16, 32])) for _ in range(count)]
    weight = rng.choice([0.02, 0.1, 0.3, 0.7, 1.0])
    jobs, ranges, epoch = [], {}, 0
    for _ in range(rng.randint(1, 6)):
        epoch += rng.randint(1, 3)
        grow(rng, logs, ranges)
        crls = random_crls(rng, issuers, serials, weight)
        entries = random_entries(rng, logs, issuers, serials, ranges)
        jobs.append(Job(epoch, T, sorted((log, *ends) for log, ends in ranges.items()), crls, entries))
    return jobs


def same(what, given, wanted):
    if given != wanted:
        raise AssertionError(f"{what}: {given!r} in place of {wanted!r}")


def held(path):
    with open(path, "rb") as file:
        return file.read()


def put(path, data):
    with open(path, "wb") as file:
        file.write(data)


def publish(rng, history, i, at):
    """Publishes a member of a history behind those before it. Gives the status, and what was printed."""
    member, workers = history.members[i], str(rng.choice([1, 2, 64]))
    if isinstance(member, Base):
        put(at("old ledger"), member.old_ledger.bytes)
        outputs = [at("part"), at("ledger0")]
        return run(*rebase_words(at("old ledger"), member.moment, outputs, workers, member.cut))
    put(at("job"), member.bytes())
    if i == 0:
        return run("snapshot", at("job"), at("part"), at("ledger0"), workers)
    return run("delta", at("job"), at(f"ledger{i - 1}"), at("part"), at(f"ledger{i}"), workers)


def rebase_words(ledger, moment, outputs, workers, cut):
    """The words that begin a chain anew with what a cut keeps."""
    command, *named = cut.words
    before, behind = (named, []) if command == "split" else ([], named)
    return [command, ledger, str(moment), *before, *outputs, workers, *behind]


def compare_files(rng, history, parts, at):
    """Publishes each member and installs its part."""
    for i, member in enumerate(history.members):
        told = publish(rng, history, i, at)
        if i == 0:
            stored = run("start", at("part"), at("store0"))
        else:
            stored = run("install", at(f"store{i - 1}"), at("part"), at(f"store{i}"))
        same(f"report {i}", told, (0, history.report(i) + "\n"))
        same(f"store line {i}", stored, (0, f"store parts {i + 1} epoch {member.epoch}\n"))
        same(f"part {i}", held(at("part")), parts[i].bytes)
        same(f"ledger {i}", held(at(f"ledger{i}")), history.ledger(i).bytes)
        same(f"store {i}", held(at(f"store{i}")), store(parts[: i + 1]))


def compare_undated(rng, jobs, at):
    """Publishes a job behind the ledger of those before it, in both versions, as if these were taken without dates, and
    begins a chain anew from it."""
    place = rng.randrange(1, len(jobs))
    old = [Job(job.epoch, job.moment, job.ranges, job.crls, job.entries, SHARDED) for job in jobs[:place]]
    history = history_of(tuple(old + [jobs[place]]))
    put(at("job"), jobs[place].bytes())
    for version in (1, 2):
        put(at("undated"), history.ledger(place - 1).written(version))
        told = run("delta", at("job"), at("undated"), at("part"), at("ledger"), "1")
        same(f"report behind version {version}", told, (0, history.report(place) + "\n"))
        same(f"part behind version {version}", held(at("part")), history.parts()[place].bytes)
        same(f"ledger behind version {version}", held(at("ledger")), history.ledger(place).bytes)
        compare_rebase(held(at("undated")), 2**64 - 1, at)


def compare_damaged_ledgers(rng, history, at):
    """Publishes a job behind ledgers that are damaged, and begins chains anew from them. Gives how many break the
    layout."""
    place, faults = rng.randrange(1, len(history.members)), 0
    put(at("job"), history.members[place].bytes())
    for _ in range(4):
        data = damaged(rng, history.ledger(place - 1).bytes)
        data = rng.choice([data, data[:-32] + sha(data[:-32])])
        put(at("damaged"), data)
        compare_rebase(data, rng.choice([0, T, 2**64 - 1]), at, random_cut(rng, history.ledger(place - 1)))
        try:
            read_ledger(data)
        except Refused as refused:
            told = run("delta", at("job"), at("damaged"), at("unwritten"), at("unwritten too"), "1")
            same("damaged ledger", told, (refused.status, refused.line(at("damaged"))))
            same("outputs", [os.path.exists(at(name)) for name in ("unwritten", "unwritten too")], [False, False])
            faults += 1
    return faults


def ask(path, identity, sightings):
    words = [word for log, time in sightings for word in (log.hex(), str(time))]
    return run("query", path, identity[0].hex(), identity[2].hex(), *words)


def random_queries(rng, history, parts, accepted, others):
    """Accepted certificates, each with the history's truth, and others, each with the verdict of the parts."""
    last = len(history.members) - 1
    known = sorted(history.identities(last))
    queries = []
    for x in rng.sample(known, min(len(known), accepted)):
        sightings = history.sightings(x, last)
        some = rng.sample(sightings, rng.randint(1, min(3, len(sightings))))
        queries.append((x, some, "revoked" if history.listed(x, last) else "good"))
    for _ in range(others):
        issuer = rng.choice(known)[0] if known and rng.random() < 0.7 else random_octets(rng, 32)
        serial = random_octets(rng, rng.randint(1, 32))
        log, first, until = rng.choice(history.members[-1].ranges)
        x, some = (issuer, len(serial), serial), [(log, rng.randint(first - 30, until + 30))]
        queries.append((x, some, verdict(parts, x, some)))
    return queries


def compare_answers(rng, history, parts, path):
    """Asks about accepted certificates, and about others. Gives how many."""
    queries = random_queries(rng, history, parts, 6, 4)
    for x, some, wanted in queries:
        same(f"answer on {x} at {some}", ask(path, x, some), (0, wanted + "\n"))
    return len(queries)


def random_moment(rng, ledger):
    """A moment at a date of the ledger, to a millisecond, or one at which nothing or all has expired that can."""
    dates = [1000 * item.until for item in ledger.items if item.until is not None]
    at_dates = [min(max(0, date + rng.choice([-1, 0, 1])), 2**64 - 1) for date in dates]
    return rng.choice(at_dates) if at_dates and rng.random() < 0.8 else rng.choice([0, T, 2**64 - 1])


def random_cut(rng, ledger):
    """Everything, what a place keeps, or all but some issuers of a ledger and one that it hasn't, in any order, some of
    them twice."""
    kind = rng.random()
    if kind < 0.3:
        return EVERYTHING
    if kind < 0.6:
        count = rng.choice([1, 2, 3, 65536])
        return at_place(rng.choice(["issuer", "identity"]), count, rng.randrange(count))
    issuers = sorted({issuer for part in ledger.parts for issuer in part.issuers})
    named = [issuer for issuer in issuers if rng.random() < 0.4] or [random_octets(rng, 32)]
    named += rng.choices(named + [random_octets(rng, 32)], k=rng.randint(0, 2))
    rng.shuffle(named)
    return without(named)


def compare_rebase(data, moment, at, cut=EVERYTHING):
    """Begins a chain anew from a file, of a history's ledger or not. Gives whether it is refused."""
    outputs = [at("new part"), at("new ledger")]
    for path in [at("old ledger"), *outputs]:
        put(path, data)
    status, text, wanted = rebase(at("old ledger"), data, moment, cut)
    told = run(*rebase_words(at("old ledger"), moment, outputs, "2", cut))
    same(f"rebase at {moment} with {cut.words}", told, (status, text))
    same(f"outputs of rebase at {moment}", [held(path) for path in outputs], wanted or [data, data])
    return status != 0


def random_items(rng, issuers, parts):
    """Identities of these issuers, with any births, last parts and dates that a ledger of so many parts may hold."""
    serials = {random_octets(rng, rng.choice([1, 2, 32])) for _ in range(rng.choice([0, 5, 30]))}
    items = []
    for identity in sorted((issuer, len(serial), serial) for issuer in issuers for serial in serials):
        birth = rng.randrange(parts)
        last, until = rng.choice([None, rng.randrange(birth, parts)]), rng.choice([None, random_date(rng)[0]])
        items.append(LedgerItem(identity, birth, last, until))
    return items


def compare_any_ledger(rng, at):
    """Begins a chain anew from a ledger of no history, in which parts and identities may have different issuers."""
    issuers = sorted({random_octets(rng, 32) for _ in range(rng.randint(0, 6))})
    parts = [
        LedgerPart(2 * place + 1, random_octets(rng, 32), [], [x for x in issuers if rng.random() < 0.6])
        for place in range(rng.choice([1, 2, 64]))
    ]
    ledger = Ledger(parts, random_items(rng, rng.sample(issuers, rng.randint(0, len(issuers))), len(parts)))
    refused = compare_rebase(ledger.bytes, random_moment(rng, ledger), at, random_cut(rng, ledger))
    same("refusal of a ledger", refused, False)


def compare_begun_anew(rng, history, at):
    """Begins the chain of a history anew behind one of its members, goes on with the jobs behind that, and asks about
    certificates; and so on from the new chain, or not. Gives how many chains were begun, and how many queries asked."""
    place = rng.randrange(len(history.members))
    front = history_of(tuple(history.members[: place + 1]))
    ledger = front.ledger(place)
    base = Base(front, random_moment(rng, ledger), random_cut(rng, ledger))
    anew = history_of((base, *history.members[place + 1 :]))
    parts = anew.parts()
    compare_files(rng, anew, parts, at)
    asked = compare_answers(rng, anew, parts, at(f"store{len(parts) - 1}"))
    if rng.random() < 0.5:
        return 1, asked
    chains, queries = compare_begun_anew(rng, anew, at)
    return 1 + chains, asked + queries


def rows_by_hand():
    """Histories, a moment, what is kept, the line of a rebase of the last ledger with that, and how many bytes the part
    and its ledger have."""
    entries = [Entry(K1, b"\5", LA, T), Entry(K1, b"\x09", LA, T, until=T // 1000)]
    others = [Entry(K2, b"\7", LA, T, until=T // 1000), Entry(K2, b"\x08", LA, T)]
    dated = [Job(1, T, [(LA, T, T + 1000)], [(K1, Crl([b"\5"]))], entries)]
    both = [Job(1, T, [(LA, T, T + 1000)], [(K1, Crl([b"\5"])), (K2, Crl([b"\7"]))], entries + others)]
    anew, said = "rebase epoch", "rebase-without epoch"
    first, last = at_place("issuer", 3, 0), at_place("issuer", 3, 2)
    return [
        (JOBS, 2**64 - 1, EVERYTHING, f"{anew} 3 issuers 1 universe 3 revoked 1 pruned 0", [276, 331]),
        (JOBS, 0, without([K2]), f"{said} 3 issuers 1 universe 3 revoked 1 pruned 0 left 0", [276, 331]),
        (JOBS, 0, first, "split 0 of 3 epoch 3 issuers 1 universe 3 revoked 1 pruned 0 left 0", [276, 331]),
        (dated, T, EVERYTHING, f"{anew} 1 issuers 1 universe 2 revoked 1 pruned 0", [199, 254]),
        (dated, T + 1, EVERYTHING, f"{anew} 1 issuers 1 universe 1 revoked 1 pruned 1", [169, 209]),
        (both, T, without([K2, LA, K2]), f"{said} 1 issuers 1 universe 2 revoked 1 pruned 0 left 2", [199, 254]),
        (both, T, first, "split 0 of 3 epoch 1 issuers 1 universe 2 revoked 1 pruned 0 left 2", [199, 254]),
        (both, T, last, "split 2 of 3 epoch 1 issuers 0 universe 0 revoked 0 pruned 0 left 4", [136, 140]),
        (both, T + 1, without([LA, K2]), f"{said} 1 issuers 1 universe 1 revoked 1 pruned 1 left 2", [169, 209]),
        (both, T + 1, without([K1]), f"{said} 1 issuers 1 universe 1 revoked 0 pruned 1 left 2", [169, 209]),
        (both, T + 1, without([K2, K1]), f"{said} 1 issuers 0 universe 0 revoked 0 pruned 0 left 4", [136, 140]),
    ]


def compare_rows(at):
    for members, moment, cut, line, sizes in rows_by_hand():
        base = Base(history_of(tuple(members)), moment, cut)
        same("line by hand", base.line, line)
        same("sizes by hand", [len(base.part.bytes), len(base.ledger.bytes)], sizes)
        compare_rebase(base.old_ledger.bytes, moment, at, cut)
        if members is JOBS:
            same("store by hand", run("start", at("new part"), at("store")), (0, "store parts 1 epoch 3\n"))
            answers = [ask(at("store"), *query) for query in QUERIES]
            same("answers by hand", answers, [(0, answer + "\n") for answer in ANSWERS])


def crowded(issuers):
    """A ledger without identities, of two parts that have so many issuers together."""
    keys = [be(number, 32) for number in range(issuers)]
    return Ledger([LedgerPart(1, sha(b""), [], keys[:40000]), LedgerPart(2, sha(b""), [], keys[30000:])], [])


def compare_limit(at):
    """Begins a chain anew with as many issuers as a part may have, and with one more; of which one may be left out."""
    for issuers, named in ((65535, []), (65536, []), (65536, [be(7, 32)]), (65537, [be(7, 32)])):
        refused = compare_rebase(crowded(issuers).bytes, 0, at, without(named))
        same(f"refusal with {issuers} issuers", refused, issuers - len(named) > 65535)
    same("refusal of all identities", compare_rebase(crowded(65536).bytes, 0, at, at_place("identity", 2, 0)), True)
    same("refusal of some issuers", compare_rebase(crowded(65536).bytes, 0, at, at_place("issuer", 2, 0)), False)


def damaged(rng, data):
    """Bytes that are cut, longer, or changed in one place."""
    at = rng.randrange(len(data))
    return rng.choice([data[:at], data + b"\0", data[:at] + random_octets(rng, 1) + data[at + 1 :]])


def damaged_job(rng, job):
    """The same, with no change but to what a job begins with and to the kinds of its records."""
    records = job.records()
    place = rng.randrange(len(records))
    records[place] = rng.choice([b"\4", b"\xff"]) + records[place][1:]
    data = job.bytes()
    return rng.choice([data[: rng.randrange(len(data))], data + b"\0", b"".join(records)])


def shrunk(rng, ranges):
    """The ranges without one, or with one that begins later."""
    place = rng.randrange(len(ranges))
    log, first, last = ranges[place]
    later = [(log, first + 1, last)] if first < last else []
    return ranges[:place] + rng.choice([[], later]) + ranges[place + 1 :]


def misfit(rng, jobs, place):
    """A job that doesn't fit behind so many of the others, or before the next one, and what its file holds: mostly its
    bytes."""
    job = jobs[min(place, len(jobs) - 1)]
    epoch, ranges, crls = job.epoch, job.ranges, list(job.crls)
    reasons = rng.sample(["crl", "epoch", "coverage"], rng.randint(1, 2))
    if "crl" in reasons:
        crls.insert(rng.randint(0, len(crls)), (random_octets(rng, 32), Crl([b"\5"], cut=True)))
    if "epoch" in reasons and place > 0:
        epoch = rng.randint(0, jobs[place - 1].epoch)
    if "coverage" in reasons and place > 0:
        epoch, ranges = epoch + (place == len(jobs)), shrunk(rng, jobs[place - 1].ranges)
    job = Job(epoch, T, ranges, crls, job.entries)
    return job, rng.choice([None, damaged_job(rng, job)] + 4 * [job.bytes()])


def compare_rehearsal(rng, history, parts, at):
    """Rehearses all jobs in one call. Gives how many queries were answered: none where the rehearsal is refused."""
    asked = random_queries(rng, history, parts, 30, 10)
    rng.shuffle(asked)
    queries = queries_bytes([(x, some) for x, some, _ in asked])
    texts = [(job, job.bytes()) for job in history.members]
    changed = rng.random() < 0.5
    if changed and rng.random() < 0.3:
        queries = damaged(rng, queries)
    elif changed:
        place = rng.randint(0, len(texts))
        texts.insert(place, misfit(rng, history.members, place))
    put(at("queries"), queries)
    files = [JobFile(at(f"job{i}"), data, job) for i, (job, data) in enumerate(texts)]
    for file in files:
        if file.data is not None:
            put(file.name, file.data)
    told = run("rehearse", at("queries"), str(rng.choice([1, 2, 64])), *(file.name for file in files))
    status, text = rehearse(at("queries"), queries, files)
    same("rehearsal", told, (status, text))
    if not changed:
        same("answers of the rehearsal", text.splitlines()[len(files) :], [wanted for _, _, wanted in asked])
    return len(asked) if status == 0 else 0


def compare_audit(rng, history, parts, at):
    """Audits the store of all parts, or of the first ones, by all jobs. Gives whether it agrees."""
    last = rng.choice([len(parts) - 1] * 2 + list(range(len(parts))))
    texts = [(job, job.bytes()) for job in history.members]
    if rng.random() < 0.2:
        place = rng.randint(0, len(texts))
        texts.insert(place, misfit(rng, history.members, place))
    files = [JobFile(at(f"audited{i}"), data, job) for i, (job, data) in enumerate(texts)]
    for file in files:
        if file.data is not None:
            put(file.name, file.data)
    told = run("audit", at(f"store{last}"), *(file.name for file in files))
    status, text = audit(parts[: last + 1], files)
    same("audit", told, (status, text))
    return status == 0


def compare_sample(rng, at):
    """Makes a job from a number."""
    number, count = rng.randrange(2**64), rng.randint(1, 1000)
    data, line = sample(number, count)
    same("line of a sample", run("sample", str(number), str(count), at("sample")), (0, line))
    same("sample", held(at("sample")), data)


def compare_history(rng, at):
    """Compares all that is done with one history. Gives how many of each there were."""
    history = history_of(tuple(random_history(rng)))
    parts, faults = history.parts(), 0
    compare_files(rng, history, parts, at)
    if len(history.members) > 1:
        compare_undated(rng, history.members, at)
        faults = compare_damaged_ledgers(rng, history, at)
    asked = compare_answers(rng, history, parts, at(f"store{len(parts) - 1}"))
    rehearsed = compare_rehearsal(rng, history, parts, at)
    agreed = compare_audit(rng, history, parts, at)
    chains, asked_anew = compare_begun_anew(rng, history, at)
    compare_any_ledger(rng, at)
    compare_sample(rng, at)
    return {
        "jobs": len(parts),
        "queries": asked + rehearsed + asked_anew,
        "refused rehearsals": int(rehearsed == 0),
        "audits that agree": int(agreed),
        "chains begun anew": chains,
        "damaged ledgers": faults,
    }


def in_a_folder(what, compare):
    """What is compared, over files in a new folder. Where something differs the script ends, and says of what."""
    with tempfile.TemporaryDirectory() as folder:
        try:
            return compare(functools.partial(os.path.join, folder))
        except AssertionError as differs:
            return sys.exit(f"{what} differs: {differs}")


def main():
    count = int(sys.argv[1]) if len(sys.argv) > 1 else 20
    seed = int(sys.argv[2]) if len(sys.argv) > 2 else 1
    in_a_folder("what was worked out by hand", compare_rows)
    in_a_folder("a ledger of many issuers", compare_limit)
    done = collections.Counter()
    for number in range(count):
        rng = random.Random(seed * 1_000_003 + number)
        done.update(in_a_folder(f"history {number} of seed {seed}", functools.partial(compare_history, rng)))
    counts = "".join(f", {number} {what}" for what, number in done.items())
    print(f"{count} histories{counts}: nothing differs")


if __name__ == "__main__":
    main()
