#!/usr/bin/python3
"""Names a chain that was begun elsewhere, so that an epoch of the workflow goes on with it (README.md):

    fleet/adopt.py FOLDER LEDGER STORE JOB ..

LEDGER is the newest, STORE has all parts, and the jobs are all that were published, in order. Copies lie in FOLDER,
an epoch's in `1`, `2` and so on, of which EPOCH's `[before]` names all. Nothing is tested here: the next epoch's part
fits behind STORE only where LEDGER is its own, and the audit holds STORE against all jobs. The chain is taken as one
that isn't cut. One that a rebase began goes on by `[rebase]` alone, which reads no job: any one may be named.
"""

import json
import shutil
import sys
from dataclasses import asdict
from pathlib import Path

HERE = Path(__file__).resolve().parent
sys.path[:0] = [str(HERE.parent), str(HERE.parent / "python")]

from clubcard.places import WHOLE  # noqa: E402
from clubcard.placing import digest_of, make_folder, place, settle  # noqa: E402
from fleet.chains import PUBLISHED  # noqa: E402
from fleet.made import File  # noqa: E402
from fleet.plan import MOST_NAMES  # noqa: E402


def adopt(folder: Path, files: dict[str, Path]) -> None:
    """Puts copies of the files of an epoch into its folder, and names them."""
    make_folder(folder / WHOLE)
    named = {}
    for name, source in files.items():
        copy = folder / WHOLE / name
        shutil.copyfile(source, copy)
        digest = digest_of(copy)
        assert digest is not None
        named[f"{WHOLE}/{name}"] = asdict(File(digest.hex(), copy.stat().st_size))
    settle(folder / WHOLE)
    place(folder / PUBLISHED, (json.dumps({"files": named, "places": None}, indent=1, sort_keys=True) + "\n").encode())
    settle(folder)


def main() -> None:
    if not 5 <= len(sys.argv) <= MOST_NAMES + 4:
        sys.exit("fleet: the words are FOLDER LEDGER STORE JOB ..")
    top, ledger, store, *jobs = map(Path, sys.argv[1:])
    try:
        for number, job in enumerate(jobs, 1):
            newest = {"ledger": ledger, "store": store} if number == len(jobs) else {}
            adopt(top / str(number), {"job": job, **newest})
    except OSError as fault:
        sys.exit(f"fleet: {fault}")


if __name__ == "__main__":
    main()
