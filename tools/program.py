"""Finds the program that `./clubcard` runs, for the scripts that run it many times."""

import os
import subprocess
import sys

FINDER = os.path.join(os.path.dirname(os.path.abspath(__file__)), "program.sh")


def path_of_program() -> str:
    """The program's path by tools/program.sh, which builds it where there is none. Where it can't, it has said why."""
    found = subprocess.run(["sh", FINDER], stdout=subprocess.PIPE, check=False)
    if found.returncode != 0:
        sys.exit(1)
    return os.fsdecode(found.stdout[:-1])
