#!/usr/bin/python3
"""The workflow over a Slurm of three hosts on this machine (tests/cluster.sh), where hosts are killed and cut off. Run
it by hand, as root, where Debian's snakemake, slurmctld, slurmd, slurm-client, munge and iproute2 are there:

    fleet/slurm_test.py [NAME ..]

Prints a line for each run: what was done to it, its seconds, how many tasks were handed in, and whether what it made
has the bytes of a run on this machine. The status is 0 where all have, and no late task changed a file.
"""

import json
import os
import signal
import subprocess
import sys
import tempfile
import time
from collections.abc import Callable
from pathlib import Path

HERE = Path(__file__).resolve().parent
sys.path[:0] = [str(HERE.parent), str(HERE.parent / "tools"), str(HERE.parent / "python")]

from clubcard.placing import digest_of  # noqa: E402
from fleet.chains import PUBLISHED  # noqa: E402
from fleet.tests.made_epochs import MOST, World, make_world, wait_until  # noqa: E402


def cluster(*words: str) -> None:
    subprocess.run([HERE / "tests" / "cluster.sh", *words], check=True)


def begin(world: World) -> "subprocess.Popen[bytes]":
    """Begins a run on the controller's host."""
    words = [str(HERE / "tests" / "cluster.sh"), "exec", *world.words("--latency-wait", "10", profile="slurm")]
    with open(world.epoch.parent / "log", "ab") as log:
        return subprocess.Popen(words, env=world.environment, stdin=subprocess.DEVNULL, stdout=log, stderr=log)


def held(world: World) -> str:
    """The host of the task that waits."""
    wait_until("a task waits", (world.faults / "held").exists)
    wait_until("it says where", lambda: bool((world.faults / "held").read_text()))
    return (world.faults / "held").read_text()


def plain(world: World) -> None:
    """nothing"""
    assert begin(world).wait(MOST) == 0


def host_dies(world: World, command: str = "gather") -> None:
    """the host of a task dies"""
    world.order(f"hold-{command}")
    running = begin(world)
    host = held(world)
    cluster("kill-node", host)
    assert running.wait(MOST) == 0
    cluster("boot", host)


def late(world: World) -> None:
    """Lets the task go on that waits, behind the end of the run, and waits for the end of all that is late."""
    before, world_bytes = times(world), bytes_of(world)
    assert is_worked_in(world.folder), "no task is late"
    world.order("go")
    wait_until("late tasks end", lambda: not is_worked_in(world.folder))
    assert (times(world), bytes_of(world)) == (before, world_bytes), "a late task changed a file"


def is_worked_in(folder: Path) -> bool:
    """Whether a process of any host is in a folder."""
    for link in Path("/proc").glob("[0-9]*/cwd"):
        try:
            if os.readlink(link) == str(folder):
                return True
        except OSError:
            continue
    return False


def goes_on_late(world: World, lose: str, regain: str, command: str) -> None:
    """A task goes on behind the end of the run, on a host that was lost."""
    world.order(f"hold-{command}")
    running = begin(world)
    host = held(world)
    cluster(lose, host)
    try:
        assert running.wait(MOST) == 0
        late(world)
    finally:
        cluster(regain, host)


def daemon_dies(world: World, command: str = "gather") -> None:
    """slurmd dies, its task goes on late"""
    goes_on_late(world, "kill-slurmd", "boot", command)


def host_is_cut_off(world: World, command: str = "gather") -> None:
    """the host is cut off, its task goes on late"""
    goes_on_late(world, "cut", "mend", command)


def workflow_dies(world: World, number: int = signal.SIGKILL) -> None:
    """the workflow is killed, and begun again at once"""
    world.order("slow", "3")
    running = begin(world)
    wait_until("a piece is made", lambda: any(world.folder.glob("pieces/*/*.made")))
    kill(running, number)
    assert begin(world).wait(MOST) == 0


def both(world: World, command: str = "gather") -> None:
    """a host is cut off, and the workflow is killed and begun again; the task goes on late"""
    world.order(f"hold-{command}")
    running = begin(world)
    host = held(world)
    cluster("cut", host)
    try:
        kill(running)
        assert begin(world).wait(MOST) == 0
        late(world)
    finally:
        cluster("mend", host)


def kill(running: "subprocess.Popen[bytes]", number: int = signal.SIGKILL) -> None:
    """Kills snakemake, in whose place `run.py` ran: the child of cluster.sh's last command."""
    found = subprocess.run(["ps", "-o", "pid=", "--ppid", str(running.pid)], stdout=subprocess.PIPE, check=True).stdout
    for child in found.split():
        os.kill(int(child), number)
    running.wait()


def published(world: World) -> list[str]:
    """The names of all files that are published, and of what names them."""
    return [*json.loads((world.folder / PUBLISHED).read_text())["files"], PUBLISHED]


def times(world: World) -> dict[str, tuple[int, int]]:
    """The number of each file, and when it was written. Snakemake touches records alone."""
    files = [*world.folder.glob("pieces/*/*/*.job"), *(world.folder / name for name in published(world))]
    return {str(path): (path.stat().st_ino, path.stat().st_mtime_ns) for path in files}


def bytes_of(world: World) -> dict[str, bytes | None]:
    """The SHA-256 of each of these."""
    return {name: digest_of(world.folder / name) for name in published(world)}


def wait_for_hosts() -> None:
    """Waits until all hosts take tasks again."""
    words = [str(HERE / "tests" / "cluster.sh"), "exec", "sinfo", "-h", "-N", "-o", "%T"]

    def are_idle() -> bool:
        return subprocess.run(words, stdout=subprocess.PIPE, check=True).stdout.split() == [b"idle"] * 3

    wait_until("all hosts are idle", are_idle)


def tried(what: str, fault: Callable[[World], None], world: World, wanted: dict[str, bytes | None]) -> bool:
    """One run with a fault."""
    start = time.monotonic()
    try:
        fault(world)
        said = "the same bytes" if bytes_of(world) == wanted else "OTHER BYTES"
    except (AssertionError, OSError, subprocess.SubprocessError) as failed:
        said = f"FAILED: {failed}; see {world.epoch.parent / 'log'}"
    took = time.monotonic() - start
    tasks = (world.epoch.parent / "log").read_text(errors="replace").count("Submitted ")
    print(f"| {what} | {took:.0f} s | {tasks} tasks | {said} |", flush=True)
    wait_for_hosts()
    return said == "the same bytes"


def main() -> None:
    faults: list[Callable[[World], None]] = [plain, host_dies, daemon_dies, host_is_cut_off, workflow_dies, both]
    named = [fault for fault in faults if not sys.argv[1:] or fault.__name__ in sys.argv[1:]]
    top = Path(tempfile.mkdtemp(prefix="fleet-"))
    # munged wants everybody to see its socket.
    top.chmod(0o755)
    os.environ["CLUSTER"] = str(top / "cluster")
    here = make_world(top / "here")
    start = time.monotonic()
    subprocess.run(here.words(), env=here.environment, check=True, capture_output=True)
    print(f"{top}\n| this machine alone | {time.monotonic() - start:.0f} s | | |", flush=True)
    try:
        cluster("start", "3")
        same = True
        for fault in named:
            same = tried(str(fault.__doc__), fault, make_world(top / fault.__name__), bytes_of(here)) and same
    finally:
        cluster("stop")
    sys.exit(0 if same else 1)


if __name__ == "__main__":
    main()
