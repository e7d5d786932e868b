"""Runs that are killed at a step, and begun again.

    python3 -m web.killing FOLDER SHARE OF

plays a small world in a process without threads. Each epoch is run once whole. Then, from the same state and site, it
is killed (SIGKILL) at its n-th step, for each n of this share, and begun again. A step is: a file is renamed, synced,
removed or opened for writing, the database is written, a program is called. Each line of standard output is JSON: what
was killed, and what is wrong then.
"""

import builtins
import hashlib
import io
import json
import os
import shutil
import signal
import sqlite3
import subprocess
import sys
import threading
from collections.abc import Callable
from pathlib import Path
from typing import Any

from clubcard.publish import charts

from .play import Play
from .worlds import four_epochs

FAILED = 77


class Steps:
    """Counts steps, and kills this process before the n-th; 0: never."""

    def __init__(self, last: int) -> None:
        self.last, self.count, self.names = last, 0, list[str]()
        self.lock = threading.Lock()

    def tick(self, name: str) -> None:
        with self.lock:
            self.count += 1
            self.names.append(name)
            if self.count == self.last:
                os.kill(os.getpid(), signal.SIGKILL)

    def before(self, module: Any, name: str) -> None:
        """Counts each call of a function."""
        called = getattr(module, name)

        def stepping(*words: Any, **more: Any) -> Any:
            # Of a program's call the object that is made comes first, which says nothing yet.
            said = [str(word) for word in words if isinstance(word, (str, os.PathLike, list))][:1]
            self.tick(" ".join([name, *said]))
            return called(*words, **more)

        setattr(module, name, stepping)

    def before_writing(self, module: Any) -> None:
        """Counts each file that is opened for writing."""
        called = module.open

        def opening(file: Any, mode: str = "r", *words: Any, **more: Any) -> Any:
            if set(mode) & set("wax+"):
                self.tick(f"open {file}")
            return called(file, mode, *words, **more)

        module.open = opening

    def install(self) -> None:
        """Counts all of this process from here on."""
        for name in ("replace", "rename", "fsync", "unlink", "link", "rmdir"):
            self.before(os, name)
        self.before_writing(io)
        self.before_writing(builtins)
        self.before(subprocess.Popen, "__init__")
        sqlite3.connect = _connecting(self, sqlite3.connect)


def _connecting(steps: Steps, connect: Callable[..., sqlite3.Connection]) -> Callable[..., sqlite3.Connection]:
    """What opens a database whose commits are steps."""

    class Counted(sqlite3.Connection):
        """Counts commits, and statements outside of a transaction that write."""

        def execute(self, sql: str, *words: Any) -> sqlite3.Cursor:
            verb, is_temporary = sql.split(None, 1)[0].upper(), " temp" in sql.lower()
            reads = is_temporary or verb in ("SELECT", "PRAGMA", "BEGIN", "WITH")
            if verb == "COMMIT" or not self.in_transaction and not reads:
                steps.tick(f"sqlite {verb}")
            return super().execute(sql, *words)

        def executescript(self, sql: str) -> sqlite3.Cursor:
            steps.tick("sqlite script")
            return super().executescript(sql)

    def connecting(*words: Any, **more: Any) -> sqlite3.Connection:
        return connect(*words, **{**more, "factory": Counted})

    return connecting


def run_once(play: Play, epoch: int, last: int) -> tuple[int, list[str]]:
    """One run in a process of its own: its status (negative: the signal that ended it), and its steps."""
    reading, writing = os.pipe()
    child = os.fork()
    if child == 0:
        try:
            os.close(reading)
            steps = Steps(last)
            steps.install()
            outcome = play.run(epoch)
            os.write(writing, json.dumps([outcome.status, steps.names]).encode())
            os._exit(0)
        except BaseException as fault:  # pylint: disable=broad-except
            sys.excepthook(type(fault), fault, fault.__traceback__)
            os._exit(FAILED)
    os.close(writing)
    with os.fdopen(reading, "rb") as told:
        octets = told.read()
    _, waited = os.waitpid(child, 0)
    code = os.waitstatus_to_exitcode(waited)
    if code:
        return code, []
    status, names = json.loads(octets)
    return int(status), list(names)


def site_of(folder: Path) -> dict[str, str]:
    """All files of a site, by their digests."""
    if not folder.exists():
        return {}
    files = [path for path in folder.rglob("*") if path.is_file()]
    return {str(path.relative_to(folder)): hashlib.sha256(path.read_bytes()).hexdigest() for path in files}


def unread(site: Path) -> str | None:
    """What a client would miss in a site, at any time."""
    manifest = site / "manifest.json"
    if not manifest.exists():
        return None
    octets = manifest.read_bytes()
    if not (site / f"manifest-{hashlib.sha256(octets).hexdigest()}.minisig").exists():
        return "a manifest without its signature"
    for part in json.loads(octets)["parts"]:
        path = site / part["path"]
        if not path.exists() or hashlib.sha256(path.read_bytes()).hexdigest() != part["sha256"]:
            return f"a manifest without {part['path']}"
    return None


def unnamed(play: Play) -> str | None:
    """A file of the state that no row names. Another run would remove it, and none has to be left."""
    state = play.folder / "state"
    db = sqlite3.connect(state / "state.sqlite")
    tables = [name for (name,) in db.execute("SELECT name FROM sqlite_master WHERE type = 'table'")]
    held = {str(value) for table in tables for row in db.execute(f"SELECT * FROM {table}") for value in row}
    db.close()
    found = [path for folder in ("spool", "crls", "chain", "work") for path in (state / folder).rglob("*")]
    left = [str(path.relative_to(state)) for path in found if path.is_file()]
    return next((name for name in left if name not in held), None)


class Killing:
    """A world's play whose runs are killed."""

    def __init__(self, play: Play) -> None:
        self.play = play
        self.places = [play.folder / "state", play.site]
        self.saved = play.folder / "saved"

    def save(self) -> None:
        shutil.rmtree(self.saved, ignore_errors=True)
        for place in self.places:
            if place.exists():
                shutil.copytree(place, self.saved / place.name)

    def restore(self) -> None:
        for place in self.places:
            shutil.rmtree(place, ignore_errors=True)
            if (self.saved / place.name).exists():
                shutil.copytree(self.saved / place.name, place)

    def epoch(self, epoch: int, share: int, of: int) -> list[dict[str, Any]]:
        """Kills an epoch's run at each step of the share. It ends with the epoch made."""
        self.play.show(epoch)
        self.save()
        status, names = run_once(self.play, epoch, 0)
        assert status in (0, 10), f"epoch {epoch}: status {status}"
        whole = site_of(self.play.site)
        told = []
        for last in range(1 + share, len(names) + 1, of):
            self.restore()
            wrong = self._killed(epoch, last, status, whole)
            told.append({"epoch": epoch, "step": last, "of": len(names), "name": names[last - 1], "wrong": wrong})
        return told

    def _killed(self, epoch: int, last: int, status: int, whole: dict[str, str]) -> str | None:
        """Kills a run at a step and begins it again. Says what is wrong."""
        code, _ = run_once(self.play, epoch, last)
        # Threads don't always make the same steps: a run that makes fewer of them ends by itself.
        if code not in (-signal.SIGKILL, status):
            return f"the run that was to be killed ended with {code}"
        broken = unread(self.play.site)
        again, _ = run_once(self.play, epoch, 0)
        if again != status:
            return f"begun again it has status {again}, and not {status}"
        site = site_of(self.play.site)
        differing = sorted(name for name in site.keys() | whole.keys() if site.get(name) != whole.get(name))
        if differing:
            return f"the site differs in {differing}"
        left = unnamed(self.play)
        return broken or (f"{left} is left over" if left else None)


def draw_plainly() -> None:
    """Draws charts that take no time. They are files of the site as others are."""
    charts._svg = lambda chart, figures: f"<svg>{chart.title} {figures}</svg>".encode()


def main(folder: str, share: str, of: str) -> None:
    draw_plainly()
    with Play(four_epochs(), Path(folder)) as play:
        killing = Killing(play)
        for epoch in range(len(play.world.moments)):
            for told in killing.epoch(epoch, int(share), int(of)):
                print(json.dumps(told), flush=True)
            play.learn(epoch)
        print(json.dumps({"wrong": play.told() if play.findings else None, "answers": play.count.answers}))


if __name__ == "__main__":
    main(*sys.argv[1:])
