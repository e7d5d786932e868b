"""What a static log serves: a checkpoint, tiles, and issuers' certificates (c2sp.org/static-ct-api)."""

import base64
import hashlib
from collections.abc import Iterator

from .log import Logged, LogServer, View
from .octets import be
from .tree import Tree

WIDTH = 256


def origin(log: LogServer) -> str:
    return f"log.example/{log.place}"


def checkpoint(log: LogServer, view: View) -> bytes:
    """The signed tree head as a note: an RFC 6962 signature with its time."""
    text = f"{origin(log)}\n{view.size}\n{base64.b64encode(view.root).decode()}\n"
    key_id = hashlib.sha256(origin(log).encode() + b"\n\5" + log.id).digest()[:4]
    signature = base64.b64encode(key_id + be(view.time, 8) + log.head_signature(view)).decode()
    return f"{text}\n\u2014 {origin(log)} {signature}\n".encode()


def tile_path(index: int, full: int, width: int) -> str:
    """The path of a tile: its index in groups of three digits, and its width where it isn't full."""
    groups = [f"{index % 1000:03d}"]
    while index >= 1000:
        index //= 1000
        groups.insert(0, f"x{index % 1000:03d}")
    return "/".join(groups) + ("" if width == full else f".p/{width}")


def _cut(size: int) -> Iterator[tuple[int, int]]:
    """The tiles over so many things: index and width."""
    yield from ((index, min(WIDTH, size - index * WIDTH)) for index in range((size + WIDTH - 1) // WIDTH))


def _level(tree: Tree, level: int, size: int) -> list[bytes]:
    """The hashes of the full subtrees of 256^level leaves."""
    step = WIDTH**level
    return [tree.range_hash(at * step, (at + 1) * step) for at in range(size // step)]


def _hash_tiles(view: View, size: int) -> Iterator[tuple[str, bytes]]:
    level = 0
    while WIDTH**level <= size:
        hashes = _level(view.tree, level, size)
        for index, width in _cut(len(hashes)):
            body = b"".join(hashes[index * WIDTH : index * WIDTH + width])
            yield f"tile/{level}/{tile_path(index, WIDTH, width)}", body
        level += 1


def _data_tiles(entries: tuple[Logged, ...], size: int) -> Iterator[tuple[str, bytes]]:
    for index, width in _cut(size):
        body = b"".join(entry.tile_leaf for entry in entries[index * WIDTH : index * WIDTH + width])
        yield f"tile/data/{tile_path(index, WIDTH, width)}", body


def static_files(log: LogServer, view: View, fault: str | None) -> dict[str, bytes]:
    """The files of a static log, by their path below its URL."""
    if fault in ("silent", "busy"):
        return {}
    files = {"checkpoint": b"<html>" if fault == "garbage" else checkpoint(log, view)}
    for shown in [view] if view.later is None else [view, view.later]:
        files.update(_hash_tiles(shown, shown.size))
        files.update(_data_tiles(shown.entries, shown.size))
    if fault == "short":
        # Only whole tiles are to be had.
        whole = dict(_data_tiles(view.entries, view.served // WIDTH * WIDTH))
        files = {path: body for path, body in files.items() if "tile/data/" not in path or path in whole}
    for entry in view.entries[: view.size]:
        files.update({f"issuer/{hashlib.sha256(one).hexdigest()}": one for one in entry.chain})
    return files
