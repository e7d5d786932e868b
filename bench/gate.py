#!/usr/bin/env python3
"""What each crate costs the gate: its proof, its tests, its must-fail edits and its programs, in minutes of a
processor.

    bench/gate.py run LOG          runs .ci/run, and notes in LOG what each of its processes took; ends with its status
    bench/gate.py watch LOG PID    notes the same of a gate that runs, from now on; PID is that of its `rt ci`
    bench/gate.py table LOG ..     prints the table of all logs together, the dearest crate first, and the ten dearest
                                   edits

The times are those that the system counts (/proc), looked at four times a second: a process that lives for less is
missed. What `rt ci` prints has no times, and is no log. An edit is told by the texts that its check reads. Before a
crate's edits the crate itself is checked, and again behind them, over what they kept; both count among its edits. A log
of a gate that has ended tells how long it took by the clock. For figures from nothing run it in a fresh clone on a
quiet machine; where an earlier run there has kept what it proved, begin `rt ci --anew` by hand and watch it at once.
"""

import json
import os
import subprocess
import sys
import time

TICKS = os.sysconf("SC_CLK_TCK")
TOP = os.path.join(os.path.dirname(os.path.abspath(__file__)), "..")
KINDS = ["proof", "tests", "edits", "programs"]


def process(number):
    """The name, the parent, the processor time with that of ended children, and the start of a process; or None."""
    try:
        with open(f"/proc/{number}/stat", encoding="utf-8", errors="replace") as file:
            text = file.read()
    except OSError:
        return None
    end = text.rindex(")")
    fields = text[end + 2 :].split()
    return text[text.index("(") + 1 : end], int(fields[1]), sum(map(int, fields[11:15])), int(fields[19])


def contents(*path):
    with open(os.path.join(*path), encoding="utf-8", errors="replace") as file:
        return file.read()


def edits_of(folder):
    """The names of a crate's must-fail edits."""
    folder = os.path.join(folder, "must-fail")
    return sorted(it for it in os.listdir(folder) if it.endswith(".edit")) if os.path.isdir(folder) else []


def texts_with(edit, folder):
    """The texts of the files that an edit of the crate changes, by their paths in it."""
    texts, path, old = {}, "", ""
    for line in contents(folder, "must-fail", edit).split("\n"):
        word, _, said = line.partition(":")
        said = said.removeprefix(" ")
        if word == "file":
            path = said.strip()
            texts.setdefault(path, contents(folder, path))
        elif word == "old":
            old = said
        elif word == "new":
            texts[path] = texts[path].replace(old, said)
    return texts


def edit_in(room, folder):
    """The edit with which a copy of the crate was made."""
    for edit in edits_of(folder):
        if all(contents(room, path) == text for path, text in texts_with(edit, folder).items()):
            return edit
    return "the crate itself"


def purpose(number, top):
    """Which crate of the tree a process works for, at what, and by which edit; or None."""
    try:
        folder = os.readlink(f"/proc/{number}/cwd")
        words = contents(f"/proc/{number}/cmdline").split("\0")
        if words[0].endswith("/bin/rattle") and "--crate-name" in words:
            crate = words[words.index("--crate-name") + 1]
            if "/rt-edit-" in folder:
                return crate, "edits", edit_in(folder, os.path.join(top, "crates", crate))
            if "--test" in words:
                return crate, "tests", ""
            return crate, "programs" if "--crate-checked" in words else "proof", ""
    except OSError:
        return None
    if words[0].startswith("/tmp/rt-run-"):
        crate = os.path.basename(words[0])
        return (crate[: -len("_tests")], "tests", "") if crate.endswith("_tests") else (crate, "programs", "")
    return None


class Watch:
    """What the processes of a gate over a tree, those below its first one, took so far."""

    def __init__(self, gate, top):
        self.gate, self.top, self.began, self.seen = gate, top, time.time(), {}

    def look(self):
        found = {int(name): process(name) for name in os.listdir("/proc") if name.isdigit()}
        found = {number: it for number, it in found.items() if it}
        children = {}
        for number, it in found.items():
            children.setdefault(it[1], []).append(number)

        def whole(number):
            return found[number][2] + sum(map(whole, children.get(number, [])))

        def below(number):
            return [number] + [it for child in children.get(number, []) for it in below(child)]

        now = time.time()
        for number in below(self.gate)[1:]:
            it = found[number]
            key = f"{number}.{it[3]}"
            if key not in self.seen:
                at = purpose(number, self.top)
                above = found.get(it[1])
                if not at or above and f"{it[1]}.{above[3]}" in self.seen:
                    continue
                told = dict(zip(("crate", "kind", "edit"), at))
                self.seen[key] = {**told, "from": now - self.began, "seconds": 0}
            record = self.seen[key]
            record["to"] = now - self.began
            record["seconds"] = max(record["seconds"], whole(number) / TICKS)

    def keep(self, file, ended=None):
        with open(f"{file}.new", "w", encoding="utf-8") as it:
            json.dump({"took": ended, "processes": list(self.seen.values())}, it, indent=1)
        os.replace(f"{file}.new", file)


def follow(gate, top, has_ended, file):
    """Looks at the processes of a gate over a tree until it has ended, and notes what each took."""
    watch, turn = Watch(gate, top), 0
    while not has_ended():
        watch.look()
        turn += 1
        if turn % 80 == 0:
            watch.keep(file)
        time.sleep(0.25)
    return watch


def run(file):
    with subprocess.Popen([os.path.join(TOP, ".ci/run")]) as gate:
        watch = follow(gate.pid, TOP, lambda: gate.poll() is not None, file)
        watch.keep(file, time.time() - watch.began)
        return gate.returncode


def watch(file, gate):
    number = int(gate)
    began = process(number)
    if began is None:
        sys.exit(f"there is no process {gate}")
    age = float(contents("/proc/uptime").split()[0]) - began[3] / TICKS

    def has_ended():
        # The number may have been given to another process, which has another start.
        now = process(number)
        return now is None or now[3] != began[3]

    seen = follow(number, os.readlink(f"/proc/{number}/cwd"), has_ended, file)
    seen.keep(file, age + time.time() - seen.began)
    return 0


def read(file):
    try:
        return json.loads(contents(file))
    except ValueError:
        sys.exit(f"{file} is no log of `bench/gate.py run` or `watch`; what rt ci prints has no times")


def table(*files):
    logs = [read(file) for file in files]
    cost, edits = {}, {}
    for record in (record for log in logs for record in log["processes"]):
        crate, kind, seconds = record["crate"], record["kind"], record["seconds"]
        cost.setdefault(crate, dict.fromkeys(KINDS, 0))[kind] += seconds
        if kind == "edits":
            name = crate, record["edit"]
            edits[name] = edits.get(name, 0) + seconds
    print("| crate | " + " | ".join(KINDS) + " | all |\n|---|" + "---|" * (len(KINDS) + 1))
    total = {kind: sum(row[kind] for row in cost.values()) for kind in KINDS}
    for crate, row in [*sorted(cost.items(), key=lambda it: -sum(it[1].values())), ("all", total)]:
        cells = [f"{row[kind] / 60:.1f}" if row[kind] >= 3 else "" for kind in KINDS]
        print(f"| {crate} | " + " | ".join(cells) + f" | {sum(row.values()) / 60:.1f} |")
    for (crate, edit), seconds in sorted(edits.items(), key=lambda it: -it[1])[:10]:
        print(f"- {seconds / 60:.1f}: {crate}, {edit}")
    for file, log in zip(files, logs):
        if log["took"]:
            print(f"{file}, by the clock: {log['took'] / 60:.1f} minutes")


def main():
    match sys.argv[1:]:
        case ["run", file]:
            sys.exit(run(file))
        case ["watch", file, gate]:
            sys.exit(watch(file, gate))
        case ["table", *files] if files:
            table(*files)
        case _:
            sys.exit(__doc__)


if __name__ == "__main__":
    main()
