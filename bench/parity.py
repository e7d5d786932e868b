#!/usr/bin/env python3
"""Times the sums of rows in two builds side by side: `benches parity` of this tree (build it with `rt run` in
crates/benches) and of another. Run it at the top of the repository:

    python3 bench/parity.py OTHER_TREE/crates/benches/out/benches
"""

import os
import sys
import tempfile

PROGRAM = "crates/benches/out/benches"


def processor_time(command, output):
    """The processor time of a command in seconds."""
    redirected = [(os.POSIX_SPAWN_OPEN, 1, output, os.O_WRONLY | os.O_CREAT | os.O_TRUNC, 0o644)]
    child = os.posix_spawn(command[0], command, os.environ, file_actions=redirected)
    _, status, usage = os.wait4(child, 0)
    if status != 0:
        sys.exit(f"{command} ended with {status}")
    return usage.ru_utime + usage.ru_stime


def compare(programs, folder, keys, planes, rounds, runs):
    """The least times of a sum in nanoseconds, the making of its row included, in each program."""
    least = {program: {0: 1e9, rounds: 1e9} for program in programs}
    for _ in range(runs):
        for place, program in enumerate(programs):
            for asked in (0, rounds):
                command = [program, "parity", str(keys), str(planes), str(asked)]
                took = processor_time(command, os.path.join(folder, str(place)))
                least[program][asked] = min(least[program][asked], took)
    printed = []
    for place in range(len(programs)):
        with open(os.path.join(folder, str(place)), "rb") as output:
            printed.append(output.read())
    if printed[0] != printed[1]:
        sys.exit("the two programs print different counts")
    return [(least[program][rounds] - least[program][0]) / (2 * keys * rounds) * 1e9 for program in programs]


def main():
    if len(sys.argv) != 2 or not os.access(PROGRAM, os.X_OK):
        sys.exit(__doc__)
    with tempfile.TemporaryDirectory() as folder:
        print("     keys  planes     this    other  ratio")
        for keys, rounds in ((16000, 40), (1000000, 3)):
            for planes in (1, 6, 16):
                ours, others = compare([PROGRAM, sys.argv[1]], folder, keys, planes, rounds, 9)
                print(f"{keys:9} {planes:7} {ours:5.1f} ns {others:5.1f} ns {ours / others:6.2f}")


main()
