"""Pages of a log (docs/FORMATS.md, "Page")."""

import base64
import binascii
import json
import re
from typing import Any, NoReturn

from reference import Refused

# The most bytes that a page may have, and a leaf or the extra data of an item of it; and how many arrays and objects
# may stand within one another.
PAGE_BYTES, ITEM_BYTES, DEPTH = 67108864, 16777215, 127


class BadPage(Refused):
    """A page that isn't read: the index of an item, and what is wrong with it."""

    def __init__(self, index: int, why: str) -> None:
        super().__init__(16, f"page {index} {why}")


def is_deep(text: str) -> bool:
    """Whether there are more arrays and objects within one another than are read."""
    depth = deepest = 0
    for bracket in re.sub(r'"(\\.|[^"\\])*"|[^][{}]', "", text):
        depth += 1 if bracket in "[{" else -1
        deepest = max(deepest, depth)
    return deepest > DEPTH


def finite(digits: str) -> float:
    """A number, which a float can hold."""
    number = float(digits)
    if number in (float("inf"), float("-inf")):
        raise ValueError("too great a number")
    return number


def refuse_constant(word: str) -> NoReturn:
    """Refuses a word that is no JSON."""
    raise ValueError(word)


def members(pairs: list[tuple[str, Any]]) -> dict[str, Any]:
    """The members of an object, of which the last of one name counts. None has a lone surrogate."""
    json.dumps(pairs, ensure_ascii=False).encode()
    return dict(pairs)


def json_of(data: bytes) -> Any:
    """The value of a page's bytes."""
    text = data.decode()
    if is_deep(text):
        raise ValueError("too deep")
    value = json.loads(
        text, parse_constant=refuse_constant, parse_float=finite, parse_int=finite, object_pairs_hook=members
    )
    json.dumps(value, ensure_ascii=False).encode()
    return value


def base64_of(text: str) -> bytes | None:
    """The bytes that Base64 spells, or None."""
    try:
        octets = base64.b64decode(text, validate=True)
    except (binascii.Error, ValueError):
        return None
    return octets if base64.b64encode(octets).decode() == text else None


def item_of(index: int, item: Any) -> tuple[bytes, bytes]:
    """The leaf and the extra data of an item of a page."""
    texts = [item.get(name) if isinstance(item, dict) else None for name in ("leaf_input", "extra_data")]
    if not all(isinstance(text, str) for text in texts):
        raise BadPage(index, "shape")
    leaf, extra = (base64_of(str(text)) for text in texts)
    if leaf is None or extra is None:
        raise BadPage(index, "base64")
    if max(len(leaf), len(extra)) > ITEM_BYTES:
        raise BadPage(index, "size")
    return leaf, extra


def read_page(data: bytes) -> list[tuple[bytes, bytes]]:
    """The leaves and the extra data of a page."""
    if len(data) > PAGE_BYTES:
        raise BadPage(0, "size")
    try:
        value = json_of(data)
    except (ValueError, RecursionError):
        raise BadPage(0, "json") from None
    if not isinstance(value, dict) or not isinstance(value.get("entries"), list):
        raise BadPage(0, "shape")
    return [item_of(index, item) for index, item in enumerate(value["entries"])]
