"""The calls of the filter's layers in files of vectors: sizes, blocks that are built, parts that are read, and stores,
by tools/reference.py and the rules of docs/FORMATS.md alone."""

from __future__ import annotations

from typing import Any
from unittest import mock

import reference
import reference_files
from reference import SHARDED, Mixed, Part, Refused, SeedsExhausted, Sharded, be, ident, words_for

ISSUER = bytes([0x11] * 32)

Identity = tuple[bytes, int, bytes]


# ---------- sizes ----------
def size(of: str, word: str) -> int:
    """The starts of so many keys, the words of a plane of so many starts, or the shift of REVOKED:UNIVERSE."""
    if of == "starts":
        return int(reference.starts_for(int(word)))
    if of == "words":
        return int(words_for(int(word)))
    revoked, universe = word.split(":")
    return int(reference.shift_in(SHARDED, int(universe), int(revoked)))


# ---------- blocks ----------
def universe_of(words: tuple[str, ...]) -> tuple[list[Identity], set[Identity]]:
    """The members of words, and those of them that are revoked."""
    if words[:1] == ("counted",):
        count, revoked = (int(word) for word in words[1:])
        ids = [ident(ISSUER, be(number, 4)) for number in range(count)]
        return ids, set(ids[:revoked])
    serials = [bytes.fromhex(word.lstrip("+")) for word in words]
    ids = [ident(ISSUER, serial) for serial in serials]
    return ids, {member for member, word in zip(ids, words) if word.startswith("+")}


def row_by_length(stage: int, seed: int, identity: Identity, starts: int) -> tuple[int, int, int]:
    """A row that chooses the first column alone, with a tag by the serial's length."""
    return 0, 1, identity[1] % 2


def plane(columns: int, starts: int) -> str:
    return " plane" + "".join(f" {columns >> (64 * i) & (2**64 - 1):x}" for i in range(words_for(starts)))


def leaf(found: str | Mixed) -> str:
    """A leaf's mode, and of each stage the seed, the starts and the words of the planes."""
    if isinstance(found, str):
        return f" {found}"
    out = " mixed"
    if found.approx:
        seed, starts, planes = found.approx
        out += f" approx {seed} {starts}" + "".join(plane(columns, starts) for columns in planes)
    seed, starts, columns = found.exact
    return out + f" exact {seed} {starts}" + plane(columns, starts)


def body(block: str | Mixed | Sharded) -> str:
    return "".join(f"\nshard{leaf(one)}" for one in block.leaves) if isinstance(block, Sharded) else leaf(block)


def built(words: tuple[str, ...]) -> str:
    """The leaf of members, or the stage that is unsolvable at each seed."""
    ids, revoked = universe_of(words)
    try:
        return body(reference.build_leaf(ISSUER, ids, revoked))
    except SeedsExhausted as exhausted:
        return f" SeedsExhausted {{ stage: {exhausted.why.split()[2]} }}"


def places(block: str | Mixed | Sharded, ids: list[Identity]) -> str:
    """The places of the members for which a block tests positive."""
    return "".join(f" {place}" for place, member in enumerate(ids) if reference.positive(block, member))


# ---------- parts and stores ----------
def take_part(octets: bytes) -> tuple[Part, int]:
    """The part that some bytes begin with, and how many of them it has."""
    fields = reference_files.Fields(octets)
    return reference_files.take_part(fields), fields.at


def follows(newest: Part, part: Part) -> bool:
    """Whether a chain with room takes a part behind its newest one."""
    shrinks = not all(reference_files.lies_in(held, part.ranges) for held in newest.ranges)
    return part.kind == 1 and part.parent == newest.trailer and part.epoch > newest.epoch and not shrinks


class FilterCalls:
    """The calls of the filter's layers, of files by their names."""

    def bytes(self, word: str) -> Any:
        """The bytes of a word: those of the file that it names, or else those that it spells in hexadecimal."""
        raise NotImplementedError

    def sizes(self, of: str, *words: str) -> str:
        return of + "".join(f" {size(of, word)}" for word in words)

    def block(self, *words: str) -> str:
        return "block" + built(words)

    def block_by_length(self, *words: str) -> str:
        with mock.patch.object(reference, "row", row_by_length):
            return "block" + built(words)

    def asked(self, *words: str) -> str:
        ids, revoked = universe_of(words)
        whole = reference.build_leaf(ISSUER, ids, revoked)
        shards = reference.build_sharded(ISSUER, ids, revoked, 2)
        return f"leaf{places(whole, ids)}\nshards{places(shards, ids)}"

    def part(self, word: str) -> str:
        try:
            part, length = take_part(self.bytes(word))
        except Refused as refused:
            _, at, field, why = refused.why.split()
            return f"part {at} {named(field)} {why.capitalize()}"
        blocks = "".join(f"\nblock{body(block)}" for _, block in part.blocks)
        return f"part bytes {length}{blocks}\ntext {part.bytes.hex()}"

    def install(self, first: str, *words: str) -> str:
        out, begun = "install", take_part(self.bytes(first))[0]
        if begun.kind == 1:
            return f"{out}\ngiven back {begun.bytes.hex()}"
        parts = [begun]
        for word in words:
            newest = parts[-1]
            if word.isdecimal():
                part = Part(1, int(word), newest.trailer, [], [])
            else:
                part = take_part(self.bytes(word))[0]
            if follows(newest, part) and len(parts) < 64:
                parts.append(part)
                out += " taken"
            else:
                out += f"\ngiven back {part.bytes.hex()}"
        return f"{out}\nparts {len(parts)}"


def named(field: str) -> str:
    """The name of a field in the product."""
    return "".join(word.capitalize() for word in field.replace(".", "_").split("_"))
