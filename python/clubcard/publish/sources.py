"""What is asked of a log, of whichever kind it is."""

from typing import NamedTuple, Protocol

from ..http import Response
from .heads import TreeHead


class Client(Protocol):
    """What asks a server; `clubcard.http.Client` is one."""

    def get(self, url: str, most_bytes: int) -> Response:
        """The answer of a URL. Raises FetchError."""


_PRECERTIFICATE = b"\0\1"


class RawEntry(NamedTuple):
    """An entry as a log gives it: a `MerkleTreeLeaf` and the extra data (RFC 6962, 3.4 and 4.6). The extra data of a
    precertificate is left out, since nobody reads it."""

    leaf: bytes
    extra: bytes


def is_precertificate(leaf: bytes) -> bool:
    """Whether an entry is a precertificate, by its leaf's entry type (RFC 6962, 3.4)."""
    return leaf[10:12] == _PRECERTIFICATE


class Source(Protocol):
    """A log that can be asked. All calls may be made by several threads at once. They raise FetchError where no answer
    comes, and LogFault where it isn't what it has to be. Only `head` is verified by it: whoever asks verifies the rest
    against a tree head."""

    page: int
    """The most entries that one call of `entries` is asked for; pages begin and end at multiples of it."""

    def head(self) -> TreeHead:
        """The log's newest tree head, whose signature is verified."""

    def entries(self, start: int, end: int, size: int) -> list[RawEntry]:
        """The entries from index `start` on of the tree of `size` entries: at least one, and at most up to the index
        `end`, which isn't among them."""

    def path(self, leaf: bytes, index: int, size: int) -> list[bytes]:
        """The audit path of the entry at an index, whose leaf has the hash `leaf`, in the tree of `size` entries."""

    def consistency(self, old: int, new: int) -> list[bytes]:
        """The consistency proof between the trees of two sizes, 0 < old < new."""
