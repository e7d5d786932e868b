#!/usr/bin/python3
"""Makes an epoch over many machines (README.md), or goes on with it:

    fleet/run.py PROFILE EPOCH FOLDER [WORD ..]

PROFILE is local, slurm or kubernetes, or a folder of another one; EPOCH says what the epoch is made of; all that is
made lies in FOLDER; the words are handed to snakemake, whose status is this one's. 0: the epoch is published; 2: words
or EPOCH; 3: FOLDER is another epoch's, or a file was changed; 4: another run holds FOLDER.
"""

import json
import os
import shutil
import subprocess
import sys
from hashlib import sha256
from pathlib import Path
from typing import NoReturn

HERE = Path(__file__).resolve().parent
sys.path[:0] = [str(HERE.parent), str(HERE.parent / "python")]

from clubcard.lock import Locked, locked  # noqa: E402
from clubcard.placing import digest_of, make_folder, place, settle, sweep  # noqa: E402
from clubcard.tables import ConfigError  # noqa: E402
from fleet.chains import PUBLISHED, PlanError  # noqa: E402
from fleet.epoch import load  # noqa: E402
from fleet.plan import PLAN, Plan  # noqa: E402


def stop(status: int, text: str) -> NoReturn:
    """Ends with a status and a line on standard error."""
    print(f"fleet: {text}", file=sys.stderr)
    sys.exit(status)


def profile_of(word: str) -> Path:
    """The folder of a profile."""
    return Path(word).absolute() if "/" in word else HERE / "profiles" / word


def begin(plan: Plan, folder: Path) -> None:
    """Names the plan in the folder, where it must be the one with which it began."""
    text = plan.text().encode()
    if (folder / PLAN).exists() and (folder / PLAN).read_bytes() != text:
        stop(3, f"{folder}: it was begun with other words or other files: take a new folder")
    for name in plan.folders():
        make_folder(folder / name)
    place(folder / PLAN, text)
    settle(folder)


def is_published(folder: Path) -> bool:
    """Whether an earlier run published the epoch, whose files are compared."""
    if not (folder / PUBLISHED).exists():
        return False
    for name, file in json.loads((folder / PUBLISHED).read_text(encoding="utf-8"))["files"].items():
        digest = digest_of(folder / name)
        if digest is None or digest.hex() != file["sha256"]:
            stop(3, f"{folder / name}: it hasn't the SHA-256 with which it was published")
    return True


def clear(profile: Path, plan: Plan, folder: Path) -> None:
    """Ends the tasks that an earlier run left, as the profile does that, and removes what was half written. A task that
    lives on nevertheless then fails."""
    if (profile / "cancel.sh").exists():
        subprocess.run([profile / "cancel.sh"], check=False)
    for name in plan.folders():
        sweep(folder / name)


def main() -> None:
    if len(sys.argv) < 4 or not (profile_of(sys.argv[1]) / "config.yaml").exists():
        stop(2, f"the words are PROFILE EPOCH FOLDER [WORD ..]; {HERE / 'profiles'} has the profiles")
    profile, folder = profile_of(sys.argv[1]), Path(sys.argv[3]).absolute()
    snakemake = shutil.which("snakemake")
    try:
        plan = load(Path(sys.argv[2]))
        if snakemake is None:
            raise PlanError("there is no snakemake on PATH: install Debian's package")
        with locked(folder) as number:
            begin(plan, folder)
            if is_published(folder):
                return
            # By this name the tasks of this folder are found again.
            os.environ["FLEET"] = f"fleet-{sha256(os.fsencode(folder)).hexdigest()[:16]}"
            clear(profile, plan, folder)
            # snakemake holds the lock up to its end, and its tasks don't.
            os.set_inheritable(number, True)
            words = ["--snakefile", HERE / "Snakefile", "--directory", folder, "--profile", profile, "--nolock"]
            os.execv(snakemake, [snakemake, *map(str, words), *sys.argv[4:]])
    except Locked as fault:
        stop(4, str(fault))
    except (ConfigError, PlanError, OSError) as fault:
        stop(2, str(fault))


if __name__ == "__main__":
    main()
