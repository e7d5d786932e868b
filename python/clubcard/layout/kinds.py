"""Which kind of file some bytes are, and what is read of them."""

from collections.abc import Callable
from dataclasses import dataclass
from typing import Literal

from . import device, job, ledger, part, queries, store
from .fields import SHOWN, Fault, Fields, LayoutFault, Octets

FileKind = Literal["part", "store", "ledger", "job", "queries", "device"]
Found = (
    part.PartFound | store.StoreFound | ledger.LedgerFound | job.JobFound | queries.QueriesFound | device.DeviceFound
)
_WIDTH = 8
MAGICS: dict[FileKind, tuple[int, bytes]] = {
    "part": (0, part.MAGIC),
    "store": (0, store.MAGIC),
    "ledger": (0, ledger.MAGIC),
    "job": (0, job.MAGIC),
    "queries": (0, queries.MAGIC),
    "device": (device.MAGIC_AT, device.MAGIC),
}
"""Of each kind the offset of the bytes by which it is known, and these bytes."""


@dataclass(frozen=True)
class Read:
    """What was read of a file of a kind, None where it is of none; and the first field that is wrong."""

    kind: FileKind | None
    found: Found | None
    fault: Fault | None


def kind_of(data: Octets) -> FileKind | None:
    """The kind of a file by its magic, where it has one."""
    return next((kind for kind, (at, magic) in MAGICS.items() if data[at : at + _WIDTH] == magic), None)


def read(data: Octets, kind: FileKind | None = None, watch: Callable[[int], None] | None = None) -> Read:
    """What a file holds that is taken for one of a kind, else for one of the kind that its magic tells. `watch` is told
    of how many more bytes were read."""
    kind = kind or kind_of(data)
    if kind is None:
        return Read(None, None, _unknown(data))
    fields = Fields(data, watch=watch)
    found: Found
    try:
        if kind == "part":
            found = part.PartFound()
            part.read_part(fields, found)
            fields.whole()
        elif kind == "store":
            found = store.StoreFound()
            store.read_store(fields, found)
        elif kind == "ledger":
            found = ledger.LedgerFound()
            ledger.read_ledger(fields, found)
        elif kind == "job":
            found = job.JobFound()
            job.read_job(fields, found)
        elif kind == "queries":
            found = queries.QueriesFound()
            queries.read_queries(fields, found)
        else:
            found = device.DeviceFound()
            device.read_device(fields, found)
    except LayoutFault as error:
        return Read(kind, found, error.fault)
    return Read(kind, found, None)


def _unknown(data: Octets) -> Fault:
    """That a file's magic is none that is known."""
    places = [f"{magic.decode('ascii')} ({kind})" for kind, (at, magic) in MAGICS.items() if at == 0]
    at, magic = MAGICS["device"]
    expected = f"{', '.join(places)}, or from offset {at} on {magic.decode('ascii')} (device)"
    why: Literal["short", "value"] = "short" if len(data) < _WIDTH else "value"
    return Fault("magic", 0, why, data[: min(_WIDTH + 1, SHOWN)], _WIDTH, expected, "")
