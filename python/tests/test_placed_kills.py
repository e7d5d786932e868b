"""A run over places that is killed at each of its steps: clients see the old epoch or the new one of all places, and
the next run ends in the same site."""

import contextlib
import io
import json
import os
import shutil
import signal
import sys
from collections.abc import Sequence
from pathlib import Path
from types import SimpleNamespace

from clubcard.manifest import from_json
from clubcard.places import Places
from clubcard.publish import run as running
from clubcard.publish.issuers import Enrolment
from placed import Placed
from spooled import at
from web.killing import FAILED, Steps, site_of, unnamed

EPOCH = 2
PLACES = Places("issuer", 1, {"0000": 2})


def run_once(placed: Placed, enrolment: Enrolment, last: int) -> tuple[int, Sequence[str]]:
    """One run in a process of its own, whose CRLs and entries are there, killed before its n-th step (0: never): its
    status, negative where a signal ended it, and its steps."""
    reading, writing = os.pipe()
    child = os.fork()
    if child == 0:
        try:
            running._fetch = lambda *words: enrolment
            steps = Steps(last)
            steps.install()
            with contextlib.redirect_stderr(io.StringIO()):
                outcome = running.run(placed.world.config, at(4 * EPOCH))
            os.write(writing, json.dumps(steps.names).encode())
            os._exit(outcome.status)
        except BaseException as fault:  # pylint: disable=broad-except
            sys.excepthook(type(fault), fault, fault.__traceback__)
            os._exit(FAILED)
    os.close(writing)
    with os.fdopen(reading, "rb") as told:
        names = told.read()
    _, waited = os.waitpid(child, 0)
    return os.waitstatus_to_exitcode(waited), json.loads(names or b"[]")


def is_whole(site: Path) -> int:
    """The epoch of a site, whose manifest has its signature, and the parts of all places."""
    text = (site / "manifest.json").read_bytes()
    assert any(path.name.startswith("manifest-") for path in site.iterdir())
    manifest = from_json(text)
    assert len(manifest.chains) == 2
    for part in (part for chain in manifest.chains for part in chain.parts):
        assert (site / part.path).stat().st_size == part.length
    return manifest.epoch


def test_killed_at_each_step(tmp_path: Path, plain_charts: None) -> None:
    """In an epoch of deltas, behind which the chain begins anew."""
    placed = Placed.of(tmp_path, PLACES, rebase_after=EPOCH)
    placed.epoch(1)
    enrolment = placed.world.enrolment(placed.prepare(EPOCH))
    placed.world.state.db.execute("PRAGMA wal_checkpoint(TRUNCATE)")
    placed.world.state.close()
    # The kept CRLs aren't named by rows here, and would be swept away.
    crls = tmp_path / "publisher" / "state" / "crls"
    shutil.copytree(crls, tmp_path / "crls")
    for kept in (each for some in enrolment.crls.values() for each in some):
        object.__setattr__(kept, "file", tmp_path / "crls" / kept.file.name)
    folders = [tmp_path / "publisher" / "state", tmp_path / "site"]
    for folder in folders:
        shutil.copytree(folder, tmp_path / "before" / folder.name)
    status, names = run_once(placed, enrolment, 0)
    assert status == 0 and len(names) > 60
    assert {"replace", "fsync", "sqlite", "__init__", "open", "unlink"} <= {name.split()[0] for name in names}
    whole, seen = site_of(tmp_path / "site"), []
    assert is_whole(tmp_path / "site") == EPOCH
    for last in range(1, len(names) + 1):
        for folder in folders:
            shutil.rmtree(folder)
            shutil.copytree(tmp_path / "before" / folder.name, folder)
        code, _ = run_once(placed, enrolment, last)
        # Threads don't always make the same steps: a run that makes fewer of them ends by itself.
        assert code in (-signal.SIGKILL, 0), (last, names[last - 1])
        seen.append(is_whole(tmp_path / "site"))
        again, _ = run_once(placed, enrolment, 0)
        assert again == 0 and site_of(tmp_path / "site") == whole, (last, names[last - 1])
        left = list((tmp_path / "publisher" / "state" / "work").iterdir())
        assert not left and unnamed(SimpleNamespace(folder=tmp_path / "publisher")) is None  # type: ignore[arg-type]
    assert set(seen) == {1, EPOCH}
