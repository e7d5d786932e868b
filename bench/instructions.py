"""Counts the instructions of a command by valgrind's callgrind, for scripts that run beside other work: they are the
same on a machine that does other things, as times aren't."""

import re
import shutil
import subprocess
import sys


def callgrind(command: list[str], profile: str) -> tuple[str, str]:
    """Runs a command, which must end with status 0, and writes its profile; what it prints, and callgrind's words."""
    if shutil.which("valgrind") is None:
        sys.exit("valgrind is absent: its callgrind counts the instructions")
    counted = ["valgrind", "--tool=callgrind", "--callgrind-out-file=" + profile, *command]
    run = subprocess.run(counted, stdout=subprocess.PIPE, stderr=subprocess.PIPE, text=True, check=False)
    if run.returncode != 0:
        sys.exit(f"status {run.returncode} of {' '.join(command)}: {run.stdout.strip()}")
    return run.stdout.strip(), run.stderr


def instructions(command: list[str]) -> tuple[int, str]:
    """All that a run executes, and what it prints."""
    said, counted = callgrind(command, "/dev/null")
    found = re.search(r"Collected : (\d+)", counted)
    assert found, counted
    return int(found.group(1)), said


def of_functions(profile: str, inclusive: bool) -> dict[str, int]:
    """The instructions of each function of a profile, with those of what it calls or without."""
    told = ["callgrind_annotate", f"--inclusive={'yes' if inclusive else 'no'}", "--threshold=100", profile]
    listed = subprocess.run(told, stdout=subprocess.PIPE, text=True, check=True).stdout
    counts: dict[str, int] = {}
    for digits, name in re.findall(r"^ *([0-9,]+) \([^)]*\)  \S*?:(\S+)", listed, re.MULTILINE):
        name = name.split("::<")[0]
        count = int(digits.replace(",", ""))
        counts[name] = max(count, counts.get(name, 0)) if inclusive else count + counts.get(name, 0)
    return counts
