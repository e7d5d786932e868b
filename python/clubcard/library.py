"""The library: its structs and functions, as clubcard.h declares them."""

import ctypes
import os
import pathlib
from typing import Any, Dict, List

# The version of the interface that this module speaks (CLUBCARD_INTERFACE).
INTERFACE = 2


class LentSighting(ctypes.Structure):
    """clubcard_sighting"""

    _fields_ = [("log", ctypes.c_uint8 * 32), ("time", ctypes.c_uint64)]


class LentQuery(ctypes.Structure):
    """clubcard_one_query"""

    _fields_ = [
        ("issuer", ctypes.c_uint8 * 32),
        ("serial", ctypes.c_uint8 * 32),
        ("serial_len", ctypes.c_uint32),
        ("first_sighting", ctypes.c_uint32),
        ("sightings", ctypes.c_uint32),
        ("answer", ctypes.c_uint32),
    ]


class LentFacts(ctypes.Structure):
    """clubcard_facts"""

    _fields_ = [("parts", ctypes.c_uint64), ("newest_epoch", ctypes.c_uint64)]


class LentStoreFacts(ctypes.Structure):
    """clubcard_store_facts"""

    _fields_ = [(name, ctypes.c_uint64) for name in ("size", "parts", "newest_epoch", "index_len", "at", "field")]


class LentPartFacts(ctypes.Structure):
    """clubcard_part_facts"""

    _fields_ = [
        *((name, ctypes.c_uint64) for name in ("size", "kind", "epoch", "ranges", "issuers", "at", "field")),
        ("trailer", ctypes.c_uint8 * 32),
    ]


class LentInstallFacts(ctypes.Structure):
    """clubcard_install_facts"""

    _fields_ = [(name, ctypes.c_uint64) for name in ("size", "length", "at", "field")]


# The names of the layouts' fields, by the numbers that clubcard_field_name of clubcard.h gives them, from 1 on.
FIELDS = """
part.magic part.version part.kind part.epoch part.parent part.ranges range.log range.from range.to part.issuers
block.issuer block.mode block.k block.shift shard.mode approx.seed approx.starts approx.plane exact.seed exact.starts
exact.plane part.sharded part.trailer store.magic store.version store.count ledger.magic ledger.version ledger.parts
ledger.epoch ledger.part_trailer ledger.ranges ledger.coverage ledger.issuers ledger.issuer ledger.identities
identity.issuer identity.length identity.serial identity.birth identity.last identity.dated identity.until
ledger.digest job.magic job.epoch job.moment record.kind crl.issuer crl.length crl.bytes entry.log entry.leaf_length
entry.leaf entry.extra_length entry.extra query.magic query.count query.issuer query.length query.serial
query.sightings sighting.log sighting.time end
""".split()

_SLICE: List[Any] = [ctypes.c_void_p, ctypes.c_size_t]
_SIGHTINGS: List[Any] = [ctypes.POINTER(LentSighting), ctypes.c_size_t]
_QUERIES: List[Any] = [ctypes.POINTER(LentQuery), ctypes.c_size_t]
_AT: List[Any] = [ctypes.POINTER(ctypes.c_uint64)]
# A store and its index.
_OPENED: List[Any] = [*_SLICE, ctypes.POINTER(ctypes.c_uint32), ctypes.c_size_t]
_CALLS: Dict[str, List[Any]] = {
    "clubcard_query": [*_SLICE, ctypes.c_char_p, *_SLICE, *_SIGHTINGS, *_AT],
    "clubcard_query_cert": [*_SLICE, *_SLICE, *_SLICE, *_AT],
    "clubcard_query_each": [*_SLICE, *_SIGHTINGS, *_QUERIES, *_AT],
    "clubcard_examine": [*_SLICE, ctypes.POINTER(LentFacts), *_AT],
    "clubcard_index_length": [*_SLICE, *_AT],
    "clubcard_open": [*_OPENED, ctypes.POINTER(LentStoreFacts)],
    "clubcard_ask": [*_OPENED, ctypes.c_char_p, *_SLICE, *_SIGHTINGS],
    "clubcard_ask_cert": [*_OPENED, *_SLICE, *_SLICE],
    "clubcard_ask_each": [*_OPENED, *_SIGHTINGS, *_QUERIES],
    "clubcard_covered_until": [*_OPENED, ctypes.c_char_p, *_AT],
    "clubcard_place": [ctypes.c_uint32, ctypes.c_char_p, *_SLICE, ctypes.c_uint64, *_AT],
    "clubcard_check_part": [*_SLICE, ctypes.POINTER(LentPartFacts)],
    "clubcard_install": [*_SLICE, *_SLICE, *_SLICE, ctypes.POINTER(LentInstallFacts)],
}


def _file() -> str:
    """The library's file, or the name under which the system finds it."""
    here = pathlib.Path(__file__).resolve().parent
    if named := os.environ.get("CLUBCARD_LIBRARY"):
        return named
    # tools/install.sh puts the package into PREFIX/lib/python3.11/site-packages, or a folder of this depth.
    in_tree, installed = here.parents[1] / "release" / "libclubcard.so", here.parents[2] / "libclubcard.so"
    if here.parts[-2:] == ("python", "clubcard") and in_tree.exists():
        return str(in_tree)
    return str(installed) if installed.exists() else "libclubcard.so"


def _set_types(library: ctypes.CDLL, name: str, parameters: List[Any]) -> None:
    """Tells ctypes the types of a function, each of which answers a number of 32 bits."""
    try:
        function = getattr(library, name)
    except AttributeError as error:
        raise ImportError(f"this is no libclubcard.so, since it has no {name}: {library._name}") from error
    function.argtypes = parameters
    function.restype = ctypes.c_uint32


def load(name: str) -> ctypes.CDLL:
    """Loads the library. Where there is none, or it has another interface, it is an ImportError.

    No other function of the library is looked for before its interface is known to be this module's.
    """
    try:
        library = ctypes.CDLL(name)
    except OSError as error:
        raise ImportError(f"libclubcard.so isn't loaded ({error}); CLUBCARD_LIBRARY may name its file") from error
    _set_types(library, "clubcard_interface", [])
    interface = library.clubcard_interface()
    if interface != INTERFACE:
        raise ImportError(f"{name} has the interface {interface}, and this module is for {INTERFACE}: use its own one")
    for call, parameters in _CALLS.items():
        _set_types(library, call, parameters)
    return library


LIBRARY = load(_file())
