"""Files of each kind, small ones: made by the real program of jobs of the second one, and parts that the second program
makes by hand."""

import subprocess
from collections.abc import Sequence
from dataclasses import dataclass
from pathlib import Path
from typing import Any

from clubcard.engine import Engine
from made import LOG, MOMENT, PROGRAM, second_program

reference = second_program("reference")
ELM, OAK = b"\x11" * 32, b"\x22" * 32
OTHER_LOG = b"\xbb" * 32
DATE = MOMENT // 1000 + 86400


def job_of(
    epoch: int, ranges: dict[bytes, int], crls: dict[bytes, list[bytes]], entries: Sequence[tuple[Any, ...]]
) -> Any:
    """A job: of each log how many milliseconds behind MOMENT it covers; of each issuer the serials that its CRL lists;
    and of each entry issuer, serial, log, milliseconds behind MOMENT, and its date."""
    spans = [(log, MOMENT, MOMENT + length) for log, length in ranges.items()]
    lists = [(issuer, reference.Crl(serials)) for issuer, serials in crls.items()]
    shown = [
        reference.Entry(issuer, serial, log, MOMENT + time, until=until) for issuer, serial, log, time, until in entries
    ]
    return reference.Job(epoch, MOMENT, spans, lists, shown)


JOBS = [
    job_of(
        3,
        {LOG: 1000},
        {ELM: [b"\x05"]},
        [(ELM, b"\x05", LOG, 0, DATE), (ELM, b"\x06", LOG, 7, None), (ELM, b"\x00\x80", LOG, 1000, DATE)]
        + [(ELM, bytes([1, number]), LOG, 9, DATE) for number in range(40)],
    ),
    job_of(4, {LOG: 2000}, {ELM: [b"\x06"], OAK: []}, [(OAK, b"\x05", LOG, 1500, DATE)]),
    job_of(9, {LOG: 2000, OTHER_LOG: 5}, {OAK: [b"\x05", b"\x07"]}, [(OAK, b"\x07" * 32, OTHER_LOG, 5, DATE)]),
]


@dataclass(frozen=True)
class Made:
    """Names of files: of each job, part and ledger in the order of their epochs, the store of all parts, a device that
    holds it and one whose other slot is newer by a part, and questions."""

    jobs: list[Path]
    parts: list[Path]
    ledgers: list[Path]
    store: Path
    device: Path
    queries: Path


QUERIES = [
    ((ELM, 1, b"\x05"), [(LOG, MOMENT)]),
    ((OAK, 32, b"\x07" * 32), [(OTHER_LOG, MOMENT + 5), (LOG, 1 << 63)]),
]


def device_words(*words: str | Path | int) -> None:
    """A command on a device, which goes well."""
    subprocess.run([PROGRAM, *map(str, words)], check=True, capture_output=True)


def make(folder: Path) -> Made:
    """All of them."""
    engine = Engine(PROGRAM)
    names = [[folder / f"{what}{number}" for number in range(len(JOBS))] for what in ("job", "part", "ledger")]
    jobs, parts, ledgers = names
    for number, job in enumerate(JOBS):
        jobs[number].write_bytes(job.bytes())
        if number == 0:
            engine.snapshot(jobs[0], parts[0], ledgers[0], 1)
            engine.start(parts[0], folder / "store0")
        else:
            engine.delta(jobs[number], ledgers[number - 1], parts[number], ledgers[number], 1)
            engine.install(folder / f"store{number - 1}", parts[number], folder / f"store{number}")
    device_words("device-format", folder / "device", 1 << 16, folder / "store0")
    for part in parts[1:]:
        device_words("device-install", folder / "device", part)
    (folder / "queries").write_bytes(reference.queries_bytes(QUERIES))
    return Made(jobs, parts, ledgers, folder / f"store{len(JOBS) - 1}", folder / "device", folder / "queries")


def shard_part() -> Any:
    """A part with a block of each mode, one of them sharded, whose planes are small."""
    plane, both = (5, 2, 3), (1, 1, [9, 1 << 127])
    blocks = [
        (b"\x01" * 32, "none"),
        (b"\x02" * 32, "all"),
        (b"\x03" * 32, reference.Mixed(2, both, plane)),
        (b"\x04" * 32, reference.Sharded(2, ["none", reference.Mixed(0, None, plane), "all", "none"])),
        (b"\x05" * 32, reference.Mixed(0, None, plane)),
    ]
    return reference.Part(0, 7, bytes(32), [(LOG, 1, 2), (OTHER_LOG, 5, 5)], blocks)
