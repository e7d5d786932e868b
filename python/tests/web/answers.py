"""What a log answers to the requests of RFC 6962, 4."""

import base64
import json
from collections.abc import Mapping
from dataclasses import dataclass, field

from .log import LogServer, View
from .tree import leaf_hash
from .world import World

PAGE = 64


@dataclass(frozen=True)
class Answer:
    status: int
    body: bytes
    headers: Mapping[str, str] = field(default_factory=dict)


def _json(value: object) -> Answer:
    return Answer(200, json.dumps(value).encode(), {"content-type": "application/json"})


def _text(octets: bytes) -> str:
    return base64.b64encode(octets).decode()


BAD = Answer(400, b"bad request")


class Rfc6962:
    """A log in an epoch of a world. `show` sets the epoch."""

    def __init__(self, log: LogServer, world: World) -> None:
        self.log, self.world = log, world
        self.show(0)

    def show(self, epoch: int) -> None:
        self.fault = self.log.spec.fault(epoch)
        self.view: View = self.log.view(self.world, epoch)
        self.heads = 0

    def answer(self, path: str, query: Mapping[str, str]) -> Answer:
        """The answer to a path below the log's URL."""
        if self.fault == "silent":
            return Answer(404, b"not found")
        if self.fault == "busy":
            return Answer(429, b"too many requests", {"retry-after": "0"})
        calls = {
            "ct/v1/get-sth": self._head,
            "ct/v1/get-entries": self._entries,
            "ct/v1/get-sth-consistency": self._consistency,
            "ct/v1/get-entry-and-proof": self._entry_and_proof,
            "ct/v1/get-proof-by-hash": self._proof_by_hash,
        }
        try:
            return calls[path](query) if path in calls else Answer(404, b"not found")
        except (KeyError, ValueError, IndexError):
            return BAD

    def _head(self, _: Mapping[str, str]) -> Answer:
        view = self.view if not self.heads or self.view.later is None else self.view.later
        self.heads += 1
        if self.fault == "garbage":
            return Answer(200, b"<html>please wait</html>")
        head: dict[str, object] = {"tree_size": view.size, "timestamp": view.time}
        head["sha256_root_hash"] = _text(view.root)
        head["tree_head_signature"] = _text(self.log.head_signature(view))
        return _json(head)

    def _entries(self, query: Mapping[str, str]) -> Answer:
        start, end = int(query["start"]), int(query["end"])
        if not 0 <= start <= end or start >= self.view.served:
            return BAD
        page = self.view.entries[start : min(end + 1, self.view.served, start + PAGE)]
        return _json({"entries": [{"leaf_input": _text(e.leaf), "extra_data": _text(e.extra)} for e in page]})

    def _consistency(self, query: Mapping[str, str]) -> Answer:
        first, second = int(query["first"]), int(query["second"])
        if not 0 < first <= second <= len(self.view.entries):
            return BAD
        return _json({"consistency": [_text(one) for one in self.view.tree.consistency(first, second)]})

    def _entry_and_proof(self, query: Mapping[str, str]) -> Answer:
        index, size = int(query["leaf_index"]), int(query["tree_size"])
        if not 0 <= index < size <= len(self.view.entries):
            return BAD
        entry = self.view.entries[index]
        path = [_text(one) for one in self.view.tree.inclusion(index, size)]
        return _json({"leaf_input": _text(entry.leaf), "extra_data": _text(entry.extra), "audit_path": path})

    def _proof_by_hash(self, query: Mapping[str, str]) -> Answer:
        size, wanted = int(query["tree_size"]), base64.b64decode(query["hash"])
        leaves = [leaf_hash(entry.leaf) for entry in self.view.entries[:size]]
        index = leaves.index(wanted)
        path = [_text(one) for one in self.view.tree.inclusion(index, size)]
        return _json({"leaf_index": index, "audit_path": path})
