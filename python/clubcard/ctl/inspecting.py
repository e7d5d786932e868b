"""`clubcardctl inspect`: what a file holds, and which of its fields is wrong."""

import contextlib
import enum
import json
import mmap
import os
import stat
import sys
from collections.abc import Callable, Iterator
from typing import get_args

import click

from ..layout import kinds
from ..layout.fields import Octets
from . import program as programs
from .ask_words import Guarded
from .facts import Facts, facts_of, fault_facts
from .known import Names, names_of
from .telling import lines_of
from .words import Wrong

# Up to so many bytes a file is read at once; a larger one is mapped, and its reading is shown on a terminal.
_LARGE = 1 << 24


class Status(enum.IntEnum):
    """What a call ends with."""

    WHOLE = 0
    WRONG = 1
    # All fields pass their tests, and the program gave no answer.
    UNSAID = 3


@contextlib.contextmanager
def opened(name: str) -> Iterator[Octets]:
    """The bytes of a file or of a block device."""
    data: Octets
    try:
        with open(name, "rb", opener=_open) as file:
            mode, size = os.fstat(file.fileno()).st_mode, 0
            if not (stat.S_ISREG(mode) or stat.S_ISBLK(mode)):
                raise Wrong(f"{name}: it is neither a file nor a block device; write its bytes into a file first")
            size = file.seek(0, os.SEEK_END)
            file.seek(0)
            data = mmap.mmap(file.fileno(), size, access=mmap.ACCESS_READ) if size > _LARGE else file.read()
    except (OSError, ValueError) as error:
        why = error.strerror if isinstance(error, OSError) else error
        raise Wrong(f"{name}: it can't be read ({why}); look at its name and rights") from error
    try:
        yield data
    finally:
        if isinstance(data, mmap.mmap):
            data.close()


def _open(name: str, flags: int) -> int:
    """Opens a file; a pipe isn't waited for."""
    return os.open(name, flags | os.O_NONBLOCK)


@contextlib.contextmanager
def watched(size: int) -> Iterator[Callable[[int], None] | None]:
    """What is told how many more bytes were read, of so many: a bar on a terminal, where the file is large."""
    if size <= _LARGE:
        yield None
        return
    try:
        from ..progress import shown
    except ImportError:
        # Without `rich` there is none.
        yield None
        return
    with shown() as bars, bars.task("bytes read", size) as task:
        yield task.advance


def report_of(name: str, kind: kinds.FileKind | None, names: Names, program: str) -> Facts:
    """What a file holds, whether it is whole, and what the program says of it.

    whole: whether all fields pass their tests and the program reads it; differs: whether the one says otherwise than
    the other.
    """
    with opened(name) as data:
        size = len(data)
        with watched(size) as watch:
            read = kinds.read(data, kind, watch)
    said = None if read.kind is None else programs.ask(program, name, read.kind)
    return {
        "file": name,
        "kind": read.kind,
        "bytes": size,
        "whole": read.fault is None and said is not None and said.accepts is True,
        "fault": fault_facts(read.fault),
        "program": None if said is None else vars(said),
        "differs": said is not None and said.accepts is not None and not _agree(read, said),
        "facts": None if read.found is None else facts_of(read.found, names),
    }


def _agree(read: kinds.Read, said: programs.Said) -> bool:
    """Whether the program refuses a file for the field that is wrong, or for what no layout says. It counts serials
    before it reads what stands behind them."""
    if said.line.startswith("limit serials "):
        return True
    if read.fault is not None:
        return said.line == read.fault.line
    return said.accepts is True or said.line.startswith("crl ")


def status_of(report: Facts) -> Status:
    """What a call ends with that finds this."""
    if report["whole"]:
        return Status.WHOLE
    is_unsaid = report["fault"] is None and report["program"]["accepts"] is None
    return Status.UNSAID if is_unsaid else Status.WRONG


@click.command(cls=Guarded)
@click.option(
    "--kind",
    type=click.Choice(get_args(kinds.FileKind)),
    help="Read FILE as one of this kind, whatever its magic is.",
)
@click.option(
    "--manifest",
    "manifests",
    multiple=True,
    type=click.Path(),
    metavar="MANIFEST",
    help="A site's manifest.json, with names of issuers and logs; its signature isn't looked at.",
)
@click.option(
    "--certificates",
    multiple=True,
    type=click.Path(),
    metavar="CERTS",
    help="A file with issuers' certificates, in DER or PEM, or a folder of such files.",
)
@click.option(
    "--program",
    default=programs.beside,
    type=click.Path(),
    metavar="PROGRAM",
    help="The program that is asked about FILE too; else the one that goes with this package, or is on PATH.",
)
@click.option("--json", "is_json", is_flag=True, help="Print one object of JSON.")
@click.argument("file", metavar="FILE", type=click.Path())
def inspect(
    kind: kinds.FileKind | None,
    manifests: tuple[str, ...],
    certificates: tuple[str, ...],
    program: str,
    is_json: bool,
    file: str,
) -> None:
    """Tells what FILE holds: a part, a store, a ledger, a job, a query file or a device, by its magic.

    Where a field is wrong, it is named as in docs/FORMATS.md, with its offset, its bytes in hexadecimal and what was
    expected; what stands before it is told. Then the program is asked about FILE, by a command that reads such a file
    and writes nothing. How many identities an issuer has in a part is what the sizes of its filters tell, where the
    program built it.

    Status 0: FILE is whole; 1: a field is wrong, or the program refuses it; 3: all fields pass their tests, and the
    program gave no answer; 2: a word is wrong, or a file can't be read.
    """
    report = report_of(file, kind, names_of(manifests, certificates), program)
    if is_json:
        click.echo(json.dumps(report))
    else:
        click.echo("\n".join(lines_of(report)))
    sys.exit(status_of(report))
