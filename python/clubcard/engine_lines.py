"""What the program's lines say on success (docs/FORMATS.md, "Lines and statuses")."""

import re
from collections.abc import Sequence
from dataclasses import dataclass
from typing import Literal

from .answers import Verdict

Kind = Literal["snapshot", "delta"]


class UnreadLine(ValueError):
    """A line isn't of the form that was asked for."""


@dataclass(frozen=True)
class Published:
    """A part was published: the epoch; its place in its chain from 0; how many issuers, accepted identities and revoked
    ones it has; how many entries were unread, uncovered, unenrolled, late and accepted."""

    epoch: int
    part: int
    issuers: int
    universe: int
    revoked: int
    unread: int
    uncovered: int
    unenrolled: int
    late: int
    accepted: int


@dataclass(frozen=True)
class Rebased:
    """A chain was begun anew: how many issuers its part has, how many identities are kept, how many of these are
    revoked, how many were pruned, and how many were left out beside that (None where nothing else could be)."""

    epoch: int
    issuers: int
    universe: int
    revoked: int
    pruned: int
    left: int | None


@dataclass(frozen=True)
class StoreFacts:
    """A store was written: how many parts it has, and the newest one's epoch."""

    parts: int
    epoch: int


@dataclass(frozen=True)
class PartFacts:
    """What `check` says of a part. Its size is in bytes."""

    kind: Kind
    epoch: int
    ranges: int
    issuers: int
    size: int


@dataclass(frozen=True)
class Range:
    """What a part covers of a log (32 bytes): from and to, both included, in milliseconds since 1970."""

    log: bytes
    low: int
    high: int


@dataclass(frozen=True)
class Leaf:
    """A leaf of a block: `none` or `all` are revoked, or `mixed`, with so many planes in its approximate stage, and the
    seed and the starts of each stage. The approximate one is None where it has no planes."""

    mode: Literal["none", "all", "mixed"]
    planes: int | None = None
    approx: tuple[int, int] | None = None
    exact: tuple[int, int] | None = None


@dataclass(frozen=True)
class Block:
    """A block of a part: its issuer (32 bytes), and its one leaf; or where it is sharded, its shift and 2^shift
    leaves."""

    issuer: bytes
    shift: int | None
    leaves: tuple[Leaf, ...]


@dataclass(frozen=True)
class PartShown:
    """What `show` says of a part. Parent and trailer have 32 bytes."""

    kind: Kind
    version: int
    epoch: int
    parent: bytes
    ranges: tuple[Range, ...]
    blocks: tuple[Block, ...]
    trailer: bytes


@dataclass(frozen=True)
class Rehearsed:
    """What `rehearse` says: of each job what its publishing would, and of each query the verdict."""

    published: tuple[Published, ...]
    verdicts: tuple[Verdict, ...]


@dataclass(frozen=True)
class Audited:
    """A store says the truth of all entries that the jobs accept."""

    jobs: int
    entries: int


@dataclass(frozen=True)
class Gathered:
    """Pages stand behind a job: how many, with how many entries, and how many bytes the job has."""

    pages: int
    entries: int
    size: int


@dataclass(frozen=True)
class Merged:
    """Pieces stand behind a job: how many, with how many entries, and how many bytes the job has."""

    pieces: int
    entries: int
    size: int


@dataclass(frozen=True)
class Divided:
    """A job is cut: into how many pieces, and how many entries and bytes it has."""

    pieces: int
    entries: int
    size: int


@dataclass(frozen=True)
class Sampled:
    """The generator's job: how many entries it has, how many of them its CRLs list, and how many bytes."""

    number: int
    entries: int
    revoked: int
    size: int


def words_of(line: str, form: str) -> list[str]:
    """The words of a line that stand in place of each `#` of a form. Else it raises `UnreadLine`."""
    found = re.fullmatch(re.escape(form).replace(r"\#", "([0-9a-z-]+)"), line)
    if found is None:
        raise UnreadLine(line)
    return list(found.groups())


def numbers_of(line: str, form: str) -> list[int]:
    """The numbers that stand in place of each `#` of a form."""
    words = words_of(line, form)
    if not all(word.isdecimal() for word in words):
        raise UnreadLine(line)
    return [int(word) for word in words]


def published(line: str) -> Published:
    """The line of `snapshot` and `delta`."""
    form = "epoch # part # issuers # universe # revoked # unread # uncovered # unenrolled # late # accepted #"
    return Published(*numbers_of(line, form))


def rebased(line: str, said: str) -> Rebased:
    """The line of a chain begun anew, which begins with these words: it tells what is left out but behind `rebase`."""
    form = f"{said} epoch # issuers # universe # revoked # pruned #"
    if said != "rebase":
        return Rebased(*numbers_of(line, f"{form} left #"))
    epoch, issuers, universe, revoked, pruned = numbers_of(line, form)
    return Rebased(epoch, issuers, universe, revoked, pruned, None)


def kind_of(word: str) -> Kind:
    """The kind of a part."""
    if word == "snapshot":
        return "snapshot"
    if word == "delta":
        return "delta"
    raise UnreadLine(word)


def part_facts(line: str) -> PartFacts:
    """The line of `check`."""
    first, kind, *rest = line.split(" ")
    return PartFacts(kind_of(kind), *numbers_of(" ".join([first, *rest]), "part epoch # ranges # issuers # bytes #"))


def verdict_of(line: str) -> Verdict:
    """The line of `query`."""
    verdict = {each.name.lower().replace("_", "-"): each for each in Verdict}.get(line)
    if verdict is None:
        raise UnreadLine(line)
    return verdict


def leaf_of(words: Sequence[str]) -> Leaf:
    """The words of a leaf: `none`, `all`, or `mixed k K approx SEED STARTS exact SEED STARTS`."""
    match words:
        case ["none"]:
            return Leaf("none")
        case ["all"]:
            return Leaf("all")
        case ["mixed", "k", "0", "exact", seed, starts]:
            return Leaf("mixed", 0, None, (int(seed), int(starts)))
        case ["mixed", "k", planes, "approx", seed, starts, "exact", other, others]:
            return Leaf("mixed", int(planes), (int(seed), int(starts)), (int(other), int(others)))
    raise UnreadLine(" ".join(words))


def block_of(lines: list[str]) -> Block:
    """The next block, whose lines are taken from the front."""
    word, issuer, *rest = lines.pop(0).split(" ")
    if word != "issuer":
        raise UnreadLine(f"{word} {issuer}")
    if rest[0] != "sharded":
        return Block(bytes.fromhex(issuer), None, (leaf_of(rest),))
    shift = int(rest[1])
    shards = [lines.pop(0).split(" ") for _ in range(1 << shift)]
    return Block(bytes.fromhex(issuer), shift, tuple(leaf_of(shard[2:]) for shard in shards))


def part_shown(lines: Sequence[str]) -> PartShown:
    """The lines of `show`."""
    kind, version, epoch, parent = words_of(lines[0], "part # version # epoch # parent #")
    ranges = [words_of(line, "range # # #") for line in lines if line.startswith("range ")]
    left, blocks = list(lines[1 + len(ranges) : -1]), []
    while left:
        blocks.append(block_of(left))
    (trailer,) = words_of(lines[-1], "trailer #")
    return PartShown(
        kind_of(kind),
        int(version),
        int(epoch),
        bytes.fromhex(parent),
        tuple(Range(bytes.fromhex(log), int(low), int(high)) for log, low, high in ranges),
        tuple(blocks),
        bytes.fromhex(trailer),
    )
