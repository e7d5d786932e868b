"""The updater killed at each of its steps, and the program at each of its system calls on a device; a full disk."""

import json
import os
import shutil
import signal
import subprocess
import sys
import threading
from collections.abc import Iterator
from dataclasses import replace
from pathlib import Path

import pytest

from clubcard.engine import Engine, EngineError
from clubcard.http import Client
from clubcard.manifest import from_json
from clubcard.update.run import run
from followed import REBASED, Follower, History, Web
from made import PROGRAM, TOP
from spooled import key_of, log_of
from web.killing import FAILED, Steps

TESTS = Path(__file__).resolve().parent


@pytest.fixture(name="unused", scope="module")
def unused_client() -> Iterator[Client]:
    """A client that asks nothing in this process, so that children may begin with it."""
    with Client(sleep=lambda seconds: None) as made:
        yield made


def run_once(client: Follower, now: int, unused: Client, last: int) -> tuple[int, int]:
    """One run in a process of its own, which is killed before its n-th step (0: never): its status, negative where a
    signal ended it, and how many steps it made."""
    config = client.config()
    reading, writing = os.pipe()
    child = os.fork()
    if child == 0:
        try:
            steps = Steps(last)
            steps.install()
            outcome = run(config, now, unused)
            os.write(writing, str(steps.count).encode())
            os._exit(outcome.status)
        except BaseException as fault:  # pylint: disable=broad-except
            sys.excepthook(type(fault), fault, fault.__traceback__)
            os._exit(FAILED)
    os.close(writing)
    with os.fdopen(reading, "rb") as told:
        count = told.read()
    _, waited = os.waitpid(child, 0)
    return os.waitstatus_to_exitcode(waited), int(count or b"0")


@pytest.mark.parametrize(
    ("is_device", "old", "new"),
    [(False, 3, 5), (False, REBASED - 1, REBASED), (True, None, 3), (True, 3, 4), (True, 3, 5)],
    ids=["deltas", "a chain begun anew", "a first device", "a delta on a device", "deltas on a device"],
)
def test_killed_at_each_step(
    history: History, web: Web, tmp_path: Path, unused: Client, is_device: bool, old: int | None, new: int
) -> None:
    """At each step the store is the old one or the new one, and the next run makes it the new one."""
    client = Follower(tmp_path / "client", history, web.base, is_device)
    if old is not None:
        web.show(history.shown(old))
        client.update(old)
    else:
        assert client.file
    web.show(history.shown(new))
    shutil.copytree(client.folder, tmp_path / "before")
    status, steps = run_once(client, history.now(new), unused, 0)
    assert status == 0 and steps > 15
    client.test_has(new)
    seen = []
    for last in range(1, steps + 1):
        shutil.rmtree(client.folder)
        shutil.copytree(tmp_path / "before", client.folder)
        status, _ = run_once(client, history.now(new), unused, last)
        assert status == -signal.SIGKILL
        seen.append(client.is_old_or_new(old, new))
        kept = client.folder / "state" / "manifest.json"
        assert not kept.exists() or from_json(kept.read_bytes()).epoch in ((old, new) if seen[-1] else (old,))
        client.update(new)
    assert sorted(seen) == seen and set(seen) == {False, True}


# ---- the program, as tools/crash_test.sh kills it

CALLS = ("openat", "read", "lseek", "write", "fsync", "close")
ORDER = "sync read slot sync gate sync".split()


def wrapped(folder: Path, body: str) -> str:
    """A program that does something else with device-install."""
    script = folder / "program"
    script.write_text(f'#!/bin/sh\ncase $1 in device-install) {body} ;; esac\nexec "{PROGRAM}" "$@"\n')
    script.chmod(0o755)
    return str(script)


def order_of(trace: Path) -> list[str]:
    """What a traced install did, in the words of tools/crash_test.sh; but for the line, which is last."""
    words = ["sh", str(TOP / "tools" / "crash_test.sh"), "--order", str(trace)]
    told = subprocess.run(words, capture_output=True, text=True, check=False).stdout.split()
    return told[:-1] if told[-1:] == ["print"] else told


@pytest.mark.skipif(shutil.which("strace") is None, reason="strace isn't installed (Debian's package strace)")
@pytest.mark.parametrize("what", ["signal=KILL", "error=EIO"], ids=["killed", "failed"])
def test_device_install(history: History, web: Web, tmp_path: Path, monkeypatch: pytest.MonkeyPatch, what: str) -> None:
    """It ends at each system call on a file that it makes, by a kill or with a fault: what was done is a front of the
    order that an install owes, the device has the old store or the new one, and the next run makes it the new one."""
    client = Follower(tmp_path / "client", history, web.base, True, {"capacity": 4096})
    web.show(history.shown(3))
    client.update(3)
    web.show(history.shown(4))
    shutil.copytree(client.folder, tmp_path / "before")
    trace = tmp_path / "trace"
    words = f'exec strace -f -qq -y -s 0 -o "{trace}" -e trace=%desc -e "inject=$INJECT" "{PROGRAM}" "$@"'
    injecting = replace(client, words=client.words | {"program": wrapped(tmp_path, words)})
    count = {False: 0, True: 0}
    for call in CALLS:
        for number in range(1, 1000):
            shutil.rmtree(client.folder)
            shutil.copytree(tmp_path / "before", client.folder)
            monkeypatch.setenv("INJECT", f"{call}:{what}:when={number}")
            status, told = injecting.run(history.now(4)).status, trace.read_text()
            if "INJECTED" not in told and "KILL" not in told:
                break
            done, is_new = order_of(trace), client.is_old_or_new(3, 4)
            # Before anything is done it may be the loader that fails, and says so in words of its own.
            statuses = (0, 5) if is_new else (5,) if done else (2, 5)
            assert done == ORDER[: len(done)] and status in statuses
            count[is_new] += 1
            client.update(4)
        assert number > 1 and status == 0 and order_of(trace) == ORDER, call
    assert count[False] > 10 and count[True] > 0


def test_a_program_that_goes_on(history: History, web: Web, tmp_path: Path) -> None:
    """Where the updater alone is killed, the lock holds until the program that it called ends."""
    client = Follower(tmp_path / "client", history, web.base, True)
    web.show(history.shown(3))
    client.update(3)
    web.show(history.shown(4))
    gate, begun = tmp_path / "gate", tmp_path / "begun"
    os.mkfifo(gate)
    os.mkfifo(begun)
    client.words = {"program": wrapped(tmp_path, f'echo begun >"{begun}"; read -r line <"{gate}"')}
    words = [sys.executable, "-m", "clubcard.update", str(client.file), "--now", str(history.now(4))]
    updater = subprocess.Popen(words, env={**os.environ, "PYTHONPATH": str(TESTS.parent)})
    assert begun.read_text() == "begun\n"
    updater.kill()
    updater.wait()
    client.words = {}
    assert client.run(history.now(4)).status == 6
    client.words = {"state": "another state"}
    outcome = client.run(history.now(4))
    assert outcome.status == 6 and f"{client.place.name}.lock: another run holds the lock" in outcome.line
    client.words = {}
    shutil.rmtree(client.folder / "another state")
    gate.write_text("go on\n")
    while client.run(history.now(4)).status == 6:
        pass
    client.test_has(4)


# ---- disks that write something else, and the order of what is written


def damaging(folder: Path, command: str, place: int) -> str:
    """A program after whose command the file of the word of this place has another last byte."""
    script = folder / "damaging"
    damage = f'printf x | dd of="${place}" bs=1 seek=$(($(stat -c %s "${place}") - 1)) conv=notrunc status=none'
    script.write_text(f'#!/bin/sh\n"{PROGRAM}" "$@" || exit\n[ $1 != {command} ] || {damage}\n')
    script.chmod(0o755)
    return str(script)


def test_a_disk_that_writes_something_else(history: History, web: Web, tmp_path: Path) -> None:
    """A new store is read back before it takes the place of the former one. On a device the former one is in the other
    slot until then, and the next run makes the device anew."""
    for command, place, old, is_device in (
        ("install", 4, 3, False),
        ("start", 3, REBASED - 1, False),
        ("device-format", 2, REBASED - 1, True),
        ("device-install", 2, 3, True),
    ):
        client = Follower(tmp_path / command, history, web.base, is_device)
        web.show(history.shown(old))
        client.update(old)
        new = REBASED if command in ("start", "device-format") else old + 2
        web.show(history.shown(new))
        client.words = {"program": damaging(tmp_path, command, place)}
        outcome = client.run(history.now(new))
        # Where more is put behind the damage, the program finds it before.
        assert outcome.status in (4, 5) and "layout" in outcome.line or "otherwise than it was" in outcome.line, command
        assert client.store() == history.epoch(old).store, command
        client.words = {}
        client.update(new)


def test_a_device_that_writes_something_else(history: History, web: Web, tmp_path: Path) -> None:
    """It is told, and the next run makes it anew."""
    client = Follower(tmp_path / "client", history, web.base, True)
    web.show(history.shown(3))
    client.update(3)
    web.show(history.shown(4))
    client.words = {"program": damaging(tmp_path, "device-install", 2)}
    outcome = client.run(history.now(4))
    assert outcome.status == 5 and "otherwise than it was written" in outcome.line
    client.words = {}
    assert client.run(history.now(4)).line == "updated epoch 4 parts 4"
    client.test_has(4)


def test_order(history: History, web: Web, tmp_path: Path, monkeypatch: pytest.MonkeyPatch) -> None:
    """A file is synced before it gets its name, and its folder behind that; what is accepted is noted before the parts,
    and what the store is behind the store."""
    client = Follower(tmp_path / "client", history, web.base)
    web.show(history.shown(3))
    client.update(3)
    web.show(history.shown(4))
    steps: list[str] = []
    replace_, fsync = os.replace, os.fsync

    def synced(number: int) -> None:
        steps.append(f"sync {Path(os.readlink(f'/proc/self/fd/{number}')).name}")
        fsync(number)

    def renamed(source: Path, target: Path) -> None:
        assert f"sync {source.name}" in steps
        steps.append(f"name {target.name}")
        replace_(source, target)

    monkeypatch.setattr(os, "fsync", synced)
    monkeypatch.setattr(os, "replace", renamed)
    client.update(4)
    part = Path(history.epoch(4).manifest.parts[-1].path).name
    named = [step for step in steps if step.startswith("name")]
    assert named == ["name accepted.json", f"name {part}", "name store", "name manifest.json"]
    behind = [steps[steps.index(step) + 1] for step in named]
    assert behind == ["sync state", "sync parts", "sync client", "sync state"]


# ---- a full disk, and readers


@pytest.mark.skipif(
    subprocess.run(["unshare", "-rm", "true"], capture_output=True, check=False).returncode != 0,
    reason="this user can't mount anything",
)
@pytest.mark.parametrize("is_device", [False, True], ids=["file", "device"])
def test_a_full_disk(history: History, web: Web, tmp_path: Path, is_device: bool) -> None:
    """However much room there is, the store is the old one or the new one; with room it is the new one."""
    client = Follower(tmp_path / "client", history, web.base, is_device, {"capacity": 16384} if is_device else {})
    web.show(history.shown(3))
    client.update(3)
    web.show(history.shown(20))
    (tmp_path / "new.store").write_bytes(history.epoch(20).store)
    (tmp_path / "old.store").write_bytes(history.epoch(3).store)
    words = ["unshare", "-rm", sys.executable, str(TESTS / "full_disk.py"), str(tmp_path), str(history.now(20))]
    done = subprocess.run(
        words, env={**os.environ, "PYTHONPATH": str(TESTS.parent)}, capture_output=True, text=True, check=False
    )
    assert done.returncode == 0, done.stderr
    *told, filled = [json.loads(line) for line in done.stdout.splitlines()]
    assert (filled["status"], filled["store"]) == (0, "new"), filled
    assert all(one["store"] == ("new" if one["status"] == 0 else "old") for one in told), told
    assert all(one["then"] == [0, "new"] for one in told), told
    statuses = [one["status"] for one in told]
    assert set(statuses) == {0, 5} and sorted(statuses, reverse=True) == statuses, told
    assert any("No space left" in one["line"] or "write-fault" in one["line"] for one in told)


def test_readers(history: History, web: Web, tmp_path: Path) -> None:
    """Whoever asks while the store is replaced gets an answer, of the old one or the new one."""
    client = Follower(tmp_path / "client", history, web.base)
    web.show(history.shown(1))
    client.update(1)
    ended, faults, answers = threading.Event(), list[EngineError](), list[str]()
    first = history.entries[0]

    def ask() -> None:
        engine = Engine(PROGRAM)
        while not ended.is_set():
            try:
                words = key_of(first.issuer), first.serial, [(log_of(first.log), first.time)]
                answers.append(engine.query(client.place, *words).name)
            except EngineError as fault:
                faults.append(fault)

    reader = threading.Thread(target=ask)
    reader.start()
    try:
        for number in range(2, 12):
            web.show(history.shown(number))
            client.update(number)
    finally:
        ended.set()
        reader.join()
    assert not faults and set(answers) == {"REVOKED"}
