"""Runs the updater on a disk with little room.

    unshare -rm python3 full_disk.py FOLDER NOW

copies the client of FOLDER/client to a small disk of its own, with so many free pages as there are steps, and runs it
there; and once more with room. Each line of standard output is JSON: what the runs came to, and which store is there.
The last line is of a disk that is full of a part that an earlier run began and the site doesn't name any more.
"""

import json
import os
import shutil
import subprocess
import sys
from pathlib import Path

from clubcard.http import Client
from clubcard.update.config import load
from clubcard.update.held import device_at
from clubcard.update.run import run

PAGES = 400
STEP = 3
PAGE = 4096


def store_of(client: Path, folder: Path) -> str:
    """Which store the client has: `old`, `new`, or what it is."""
    device = client / "device"
    octets = device.read_bytes() if device.exists() else (client / "store").read_bytes()
    if device.exists():
        found = device_at(device)
        assert found is not None
        octets = octets[found.held.offset : found.held.offset + found.held.length]
    stores = {(folder / f"{name}.store").read_bytes(): name for name in ("old", "new")}
    return stores.get(octets, octets.hex())


def free_pages(disk: Path) -> int:
    """How many pages are free."""
    return os.statvfs(disk).f_bavail


def main(folder: Path, now: int) -> None:
    disk = folder / "disk"
    disk.mkdir()
    subprocess.run(["mount", "-t", "tmpfs", "-o", f"size={PAGES * PAGE}", "none", str(disk)], check=True)
    client, filler = disk / "client", disk / "filler"
    with Client(sleep=lambda seconds: None) as web:
        statuses: list[int] = []
        for free in range(0, PAGES, STEP):
            shutil.rmtree(client, ignore_errors=True)
            shutil.copytree(folder / "client", client)
            filler.write_bytes(bytes(max(0, free_pages(disk) - free) * PAGE))
            outcome = run(load(client / "client.toml"), now, web)
            told = {"free": free, "status": outcome.status, "line": outcome.line, "store": store_of(client, folder)}
            filler.unlink()
            again = run(load(client / "client.toml"), now, web)
            print(json.dumps({**told, "then": [again.status, store_of(client, folder)]}), flush=True)
            statuses.append(outcome.status)
            if statuses[-2:] == [0, 0]:
                break
        shutil.rmtree(client)
        shutil.copytree(folder / "client", client)
        left = client / "state" / "parts" / ".former.part.new"
        left.parent.mkdir()
        left.write_bytes(bytes(free_pages(disk) * PAGE))
        outcome = run(load(client / "client.toml"), now, web)
        print(json.dumps({"status": outcome.status, "line": outcome.line, "store": store_of(client, folder)}))


if __name__ == "__main__":
    main(Path(sys.argv[1]), int(sys.argv[2]))
