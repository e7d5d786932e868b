#!/usr/bin/python3
"""The program, with the faults that files in the folder FAULTS order; each is taken away by the call that it meets.

    kill-COMMAND   writes half of what is written first, and kills the task and itself
    hold-COMMAND   waits before it writes, until there is a file `go`; `held` then tells the host
    lose-cut       leaves the largest piece without its records
    lose-merge     leaves the largest piece out
    lose-split     leaves more certificates out
    slow           waits before each `gather` for the seconds in it; stays
    fail           fails each call with a word that has its text in it; stays
"""

import os
import signal
import socket
import subprocess
import sys
import time
from collections.abc import Sequence
from pathlib import Path

OUTPUT = {"gather": 4, "cut": 4, "merge": 3, "snapshot": 3, "delta": 4, "start": 3, "rebase": 4, "split": 7}
"""Which word names the first file that a command writes."""
HEADER = 24
"""How many bytes of a job come before its records."""


def met(fault: Path) -> bool:
    """Whether a fault is ordered, and no other call has met it."""
    try:
        fault.unlink()
    except FileNotFoundError:
        return False
    return True


def largest(files: Sequence[str]) -> Path:
    """The largest of some files."""
    return max(map(Path, files), key=lambda file: file.stat().st_size)


def main() -> None:
    command, faults, program = sys.argv[1], Path(os.environ["FAULTS"]), os.environ["FAULTY_PROGRAM"]
    if command == "gather" and (faults / "slow").exists():
        time.sleep(float((faults / "slow").read_text()))
    if (faults / "fail").exists() and any((faults / "fail").read_text() in word for word in sys.argv):
        sys.exit("a fault was ordered")
    if met(faults / f"hold-{command}"):
        (faults / "held").write_text(socket.gethostname())
        while not (faults / "go").exists():
            time.sleep(0.02)
    if met(faults / f"kill-{command}"):
        subprocess.run([program, *sys.argv[1:]], stdout=subprocess.DEVNULL, check=True)
        file = Path(sys.argv[OUTPUT[command]])
        os.truncate(file, file.stat().st_size // 2)
        os.kill(os.getppid(), signal.SIGKILL)
        os.kill(os.getpid(), signal.SIGKILL)
    if command == "cut" and met(faults / "lose-cut"):
        subprocess.run([program, *sys.argv[1:]], check=True)
        piece = largest(sys.argv[4:])
        piece.write_bytes(piece.read_bytes()[:HEADER] + b"\0")
        return
    words = sys.argv[1:]
    if command == "merge" and met(faults / "lose-merge"):
        words.remove(str(largest(words[3:])))
    if command == "split" and met(faults / "lose-split"):
        words[2] = str(int(words[2]) + 3000)
    os.execv(program, [program, *words])


if __name__ == "__main__":
    main()
