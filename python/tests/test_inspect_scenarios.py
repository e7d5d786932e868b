"""Every file that the scenarios and the vectors read, as it is read by the layouts: the same field is wrong that the
second program names, and none where it names none."""

from collections.abc import Mapping, Sequence
from typing import Any

import pytest

import made
from clubcard.layout import kinds

COMMANDS = made.second_program("scenario_commands")
STAGE = made.second_program("scenario_stage")
VECTORS = made.second_program("vectors")
READERS = made.second_program("scenario_readers")
FILES = made.second_program("reference_files")
DEVICES = made.second_program("scenario_device")
REFUSED = made.second_program("reference").Refused
CRATES = made.TOP / "crates"


def device_parts(data: bytes) -> None:
    """Reads a device."""
    DEVICES.Device(data, lambda: None).held()


READ: dict[kinds.FileKind, Any] = {
    "part": FILES.read_part,
    "store": READERS.read_store,
    "ledger": FILES.read_ledger,
    "job": lambda data: READERS.read_job(data, False),
    "queries": FILES.read_queries,
    "device": device_parts,
}


def line_of(kind: kinds.FileKind, data: bytes) -> str:
    """What the second program says of a file of a kind, without its name; nothing where it is whole."""
    try:
        READ[kind](data)
    except REFUSED as refused:
        return str(refused.why)
    return ""


def found_line(kind: kinds.FileKind, data: bytes) -> str:
    """The same by the layouts."""
    fault = kinds.read(data, kind).fault
    if fault is not None:
        assert data[fault.at :].startswith(fault.octets) and len(fault.octets) <= max(fault.width, 0)
        assert fault.expected and (fault.why != "short" or len(fault.octets) < fault.width)
    return "" if fault is None else fault.line


class Watching:
    """Commands before which each file that they name is read by the layouts too."""

    seen: dict[str, int] = {}
    known: set[tuple[kinds.FileKind, bytes]] = set()

    def __init__(self, inner: Any, files: Mapping[str, bytes]) -> None:
        self.inner, self.files = inner, files

    @property
    def made(self) -> Any:
        """How many calls there were."""
        return self.inner.made

    def run(self, words: Sequence[str]) -> Any:
        """Reads the files, and runs the command."""
        for word in words[1:]:
            data = self.files.get(word, b"")
            kind = kinds.kind_of(data)
            if kind is not None and (kind, data) not in self.known:
                self.known.add((kind, data))
                line = line_of(kind, data)
                assert found_line(kind, data) == line, (words, kind)
                self.seen[f"{kind} {line.split(' ')[0]}"] = self.seen.get(f"{kind} {line.split(' ')[0]}", 0) + 1
        return self.inner.run(words)


def play(path: Any, world: Any) -> dict[str, int]:
    """Plays a file, and tells of how many files of which kind what came."""
    Watching.seen, Watching.known = {}, set()
    STAGE.transcript(
        path.read_text(encoding="utf-8"),
        lambda files, most=STAGE.ALL, **fails: Watching(world(files, most, **fails), files),
    )
    return Watching.seen


@pytest.mark.parametrize("name", ["parts", "stores", "ledgers", "device", "chains", "pieces", "rehearsals", "deltas"])
def test_scenarios(name: str) -> None:
    seen = play(CRATES / "scenarios" / "data" / f"{name}.txt", COMMANDS.World)
    print(name, seen)
    assert seen


@pytest.mark.parametrize("name", ["parts", "stores", "jobs", "queries"])
def test_vectors(name: str) -> None:
    seen = play(CRATES / "vectors" / "data" / f"{name}.txt", VECTORS.Calls)
    print(name, seen)
    assert seen
