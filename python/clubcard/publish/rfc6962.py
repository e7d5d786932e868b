"""A log by the messages of RFC 6962, 4: get-sth, get-entries, get-sth-consistency, get-proof-by-hash,
get-entry-and-proof."""

import binascii
import json
from base64 import b64encode
from urllib.parse import urlencode

from ..http import FetchError, TooLong
from .heads import LogFault, LogKey, TreeHead, read_hash, read_head
from .sources import Client, RawEntry, is_precertificate

MOST_MESSAGE = 1 << 20
"""The most bytes of an answer without entries."""
MOST_PAGE = 16 << 20
"""The most bytes of an answer of entries. Where more come, fewer entries are asked for."""
MOST_ENTRY = 64 << 20
"""The most bytes of an answer of one entry: each of its two parts has up to 16 MiB, spelt in Base64."""
PAGE = 512
"""How many entries are asked for at once. Most logs answer some hundreds."""
MOST_HASHES = 128
"""The most hashes of a proof."""


class Rfc6962:
    """A log that answers the messages of RFC 6962."""

    def __init__(self, client: Client, url: str, key: LogKey) -> None:
        """`url` is the log's, with a slash at its end."""
        self._client, self._url, self._key = client, f"{url}ct/v1/", key
        self.page = PAGE

    def _ask(self, message: str, most: int, **words: str | int) -> dict[str, object]:
        """What the log answers to a message: a JSON object."""
        url = self._url + message + (f"?{urlencode(words)}" if words else "")
        try:
            answer = json.loads(self._client.get(url, most).body)
        except (ValueError, RecursionError):
            raise LogFault(f"{message} didn't answer JSON") from None
        if not isinstance(answer, dict):
            raise LogFault(f"{message} didn't answer a JSON object")
        return answer

    def head(self) -> TreeHead:
        """The log's newest tree head, verified (RFC 6962, 4.3)."""
        return read_head(self._ask("get-sth", MOST_MESSAGE), self._key)

    def entries(self, start: int, end: int, size: int) -> list[RawEntry]:
        """Entries from `start` on, at most up to `end` (RFC 6962, 4.6). A log may answer fewer than it is asked for."""
        asked = end - start
        while True:
            most = MOST_PAGE if asked > 1 else MOST_ENTRY
            try:
                answer = self._ask("get-entries", most, start=start, end=start + asked - 1)
            except TooLong:
                if asked == 1:
                    raise
                asked //= 2
                continue
            return _entries(answer.get("entries"), asked)

    def path(self, leaf: bytes, index: int, size: int) -> list[bytes]:
        """The audit path of an entry (RFC 6962, 4.5). Where a leaf stands twice in the log, that may be the path of its
        other place; then get-entry-and-proof is asked (4.8)."""
        try:
            answer = self._ask("get-proof-by-hash", MOST_MESSAGE, hash=b64encode(leaf).decode(), tree_size=size)
            if answer.get("leaf_index") == index:
                return _hashes(answer.get("audit_path"), "audit_path")
        except FetchError:
            pass
        answer = self._ask("get-entry-and-proof", MOST_ENTRY, leaf_index=index, tree_size=size)
        return _hashes(answer.get("audit_path"), "audit_path")

    def consistency(self, old: int, new: int) -> list[bytes]:
        """The consistency proof between two sizes (RFC 6962, 4.4)."""
        answer = self._ask("get-sth-consistency", MOST_MESSAGE, first=old, second=new)
        return _hashes(answer.get("consistency"), "consistency")


def _entries(items: object, asked: int) -> list[RawEntry]:
    """The entries of an answer, at most so many as it was asked for."""
    if not isinstance(items, list) or not items:
        raise LogFault("get-entries answered no entries")
    try:
        return [_entry(item["leaf_input"], item["extra_data"]) for item in items[:asked]]
    except (ValueError, KeyError, TypeError):
        raise LogFault("get-entries answered an entry without leaf_input and extra_data in Base64") from None


def _entry(leaf_input: str, extra_data: str) -> RawEntry:
    """An entry, whose members are Base64."""
    leaf = binascii.a2b_base64(leaf_input, strict_mode=True)
    return RawEntry(leaf, b"" if is_precertificate(leaf) else binascii.a2b_base64(extra_data, strict_mode=True))


def _hashes(items: object, name: str) -> list[bytes]:
    """The hashes of a proof."""
    if not isinstance(items, list) or len(items) > MOST_HASHES:
        raise LogFault(f"{name} isn't a list of hashes")
    return [read_hash(item, f"a hash of {name}") for item in items]
