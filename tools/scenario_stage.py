"""The language of scenarios (crates/play_core/README.md): reads a file of them, plays it by commands, and tells what
came of it. It knows no command, and judges nothing."""

from collections.abc import Callable, Iterator, Mapping, Sequence
from dataclasses import dataclass, field
from itertools import count
from typing import Protocol

from reference import Crl, Entry, Job, T, sha

Files = dict[str, bytes]
KINDS = {"read": "read", "write": "write", "print": "print", "disk-call": "disk call"}
ALL = 2**64 - 1


class Outcome(Protocol):
    """What came of a call: its status (None: it has none), what it printed, and the files that it changed."""

    status: int | None
    printed: str
    changed: Files


class Commands(Protocol):
    """Commands over some files."""

    @property
    def made(self) -> Mapping[str, int]:
        """How many calls of each kind they made."""
        ...

    def run(self, words: Sequence[str]) -> Outcome:
        """What comes of these words."""
        ...


# Commands over these files, of which a read gives so many bytes at most. Words behind them say which call fails: of a
# kind in KINDS, the one of this number, and of the disk each later one.
World = Callable[..., Commands]


class BadLine(Exception):
    """A line that isn't in the language."""


# ---------- words ----------
def time_of(word: str) -> int | None:
    """The time that T, T+N or T-N spells, or None."""
    if word == "T":
        return T
    if word[:2] in ("T+", "T-") and word[2:].isdecimal():
        return T + int(word[1:])
    return None


def said(names: Mapping[str, str], word: str) -> str:
    """What a word stands for."""
    if word in names:
        return names[word]
    time = time_of(word)
    if time is not None:
        return str(time)
    if word == '""':
        return ""
    return word[:-2] + "\n" if word.endswith("\\n") else word


# ---------- pieces of files ----------
def record(words: Sequence[str]) -> bytes:
    """What a record of a job adds, in the words of its line."""
    kind, *rest = words
    if kind == "job":
        return Job(int(rest[0]), int(rest[1]), [], [], []).records()[0]
    if kind == "range":
        log, first, last = rest
        return Job(0, 0, [(bytes.fromhex(log), int(first), int(last))], [], []).records()[1]
    if kind in ("crl", "fresh-crl", "stale-crl"):
        update = {"crl": None, "fresh-crl": "at", "stale-crl": "before"}[kind]
        crl = Crl([bytes.fromhex(serial) for serial in rest[1:]], update)
        return Job(0, 0, [], [(bytes.fromhex(rest[0]), crl)], []).records()[1]
    if kind == "entry":
        issuer, serial, log_id = (bytes.fromhex(word) for word in rest[:3])
        behind = bytes.fromhex(rest[4]) if len(rest) > 4 else b""
        return Job(0, 0, [], [], [Entry(issuer, serial, log_id, int(rest[3]), behind=behind)]).records()[1]
    if words != ["end"]:
        raise BadLine(f"no such piece: {words}")
    return b"\0"


def with_byte(data: bytes, at: int, value: str) -> bytes:
    """The bytes with the one at a place set."""
    if at >= len(data):
        raise BadLine(f"no such byte: {at} of {len(data)}")
    return data[:at] + bytes.fromhex(value) + data[at + 1 :]


def with_piece(data: bytes, words: Sequence[str], files: Mapping[str, bytes]) -> bytes:
    """The bytes of a file with the piece of a line."""
    match words:
        case ["hex", *digits]:
            return data + bytes.fromhex("".join(digits))
        case ["repeat", times, *digits]:
            return data + int(times) * bytes.fromhex("".join(digits))
        case ["copy", name]:
            return data + files[name]
        case ["cut", length]:
            return data[: int(length)]
        case ["byte", at, value]:
            return with_byte(data, int(at), value)
        case ["zeros", length]:
            return data[: int(length)].ljust(int(length), b"\0")
        case ["digest", first]:
            return data + sha(data[int(first) :])
    return data + record(words)


# ---------- what is told ----------
def change(name: str, data: bytes) -> str:
    """The line of a file that changed."""
    if not data:
        return f"{name}: empty\n"
    if len(data) <= 32:
        return f"{name}: {len(data)} bytes {data.hex()}\n"
    return f"{name}: {len(data)} bytes, SHA-256 {sha(data).hex()}\n"


def told(outcome: Outcome) -> str:
    """What is told of a call: its lines, its status, and the files that it changed."""
    lines = outcome.printed + ("\\\n" if outcome.printed and not outcome.printed.endswith("\n") else "")
    if outcome.status is not None and len(outcome.printed) > 4000:
        lines = change("lines", outcome.printed.encode())
    status = f"status {outcome.status}\n" if outcome.status is not None else ""
    return lines + status + "".join(change(name, data) for name, data in sorted(outcome.changed.items()))


# ---------- how often a command runs ----------
@dataclass(frozen=True)
class Prepared:
    """What a run of some number goes over, and whether it is known to be the last one."""

    files: Files
    fault: Mapping[str, int] = field(default_factory=dict)
    is_last: bool = False


class Each:
    """Once, and with nothing failing."""

    is_once = True

    def prepare(self, files: Files, number: int) -> Prepared:
        """The run of this number."""
        return Prepared(files, is_last=True)

    def label(self, first: int, last: int) -> str:
        """How the runs of these numbers are told."""
        return ""


@dataclass(frozen=True)
class EachCall(Each):
    """With each call of a kind failing in turn, until there is none of this number."""

    kind: str
    is_once = False

    def prepare(self, files: Files, number: int) -> Prepared:
        return Prepared(files, {self.kind: number})

    def label(self, first: int, last: int) -> str:
        return label(KINDS[self.kind], str(first), str(last))


@dataclass(frozen=True)
class EachCut(Each):
    """With a file cut to each length, and then whole."""

    name: str
    is_once = False

    def prepare(self, files: Files, number: int) -> Prepared:
        data = files[self.name]
        return Prepared({**files, self.name: data[:number]}, is_last=number >= len(data))

    def label(self, first: int, last: int) -> str:
        return label(f"cut of {self.name}", str(first), str(last))


@dataclass(frozen=True)
class EachByte(Each):
    """With each of some bytes of a file set, and then with none."""

    name: str
    edits: Sequence[str]
    is_once = False

    def prepare(self, files: Files, number: int) -> Prepared:
        if number >= len(self.edits):
            return Prepared(files, is_last=True)
        at, value = self.edits[number].split("=")
        return Prepared({**files, self.name: with_byte(files[self.name], int(at), value)})

    def label(self, first: int, last: int) -> str:
        return label(f"byte of {self.name}", self.edits[first], self.edits[last])


def label(what: str, first: str, last: str) -> str:
    """The line above what some runs came to."""
    return f"[{what} {first}]\n" if first == last else f"[{what} {first} to {last}]\n"


@dataclass
class Run:
    """What is told of one run, whether it was the last one, and the files behind it."""

    text: str
    is_last: bool
    files: Files


@dataclass
class Trial:
    """A command that waits for those that are to run behind it."""

    world: World
    each: Each
    most: int
    line: str
    words: Sequence[str]
    later: list[tuple[str, Sequence[str]]] = field(default_factory=list)

    def run(self, files: Files, number: int) -> Run:
        """The run of this number."""
        prepared = self.each.prepare(files, number)
        world = self.world(prepared.files, self.most, **prepared.fault)
        outcome = world.run(self.words)
        is_last = prepared.is_last or any(world.made[kind] <= at for kind, at in prepared.fault.items())
        files, text = {**prepared.files, **outcome.changed}, told(outcome)
        for line, words in self.later:
            outcome = self.world(files, ALL).run(words)
            files, text = {**files, **outcome.changed}, text + f"then{line}\n" + told(outcome)
        return Run(text, is_last, files)

    def play_each(self, files: Files) -> str:
        """What is told of all runs; those in a row that came to the same are told once."""
        out, first, same = "", 0, ""
        for number in count():
            run = self.run(files, number)
            if number > first and (run.is_last or run.text != same):
                out += self.each.label(first, number - 1) + same
                first = number
            same = run.text
            if run.is_last:
                break
        return f"{out}[none]\n{same}"

    def play(self, files: Files) -> tuple[str, Files]:
        """What is told of all runs, and the files behind them: where they are several, those before."""
        if self.each.is_once:
            run = self.run(files, 0)
            return run.text, run.files
        return self.play_each(files), files


# ---------- files of scenarios ----------
def unrolled(lines: Sequence[str]) -> Iterator[str]:
    """The lines with those of each loop for each of its numbers."""
    places = iter(lines)
    for line in places:
        if not line.startswith("for "):
            yield line
            continue
        match line.split():
            case ["for", "N", first, "to", last]:
                body = loop_body(places)
            case _:
                raise BadLine(line)
        for number in range(int(first), int(last) + 1):
            for inner in body:
                yield numbered(inner, number)


def loop_body(places: Iterator[str]) -> list[str]:
    """The lines up to the one that ends a loop."""
    body: list[str] = []
    for line in places:
        if line.rstrip() == "done":
            return body
        if line.startswith("for "):
            raise BadLine("a loop in a loop")
        body.append(line)
    raise BadLine("a loop without its end")


def numbered(line: str, number: int) -> str:
    """The line of a loop for one of its numbers."""
    for word, value in (("N", number), ("N-1", number - 1), ("N+1", number + 1)):
        line = line.replace(f"{{{word}}}", str(value))
    return line


@dataclass
class Stage:
    """What the lines of a file of scenarios have said so far, and what was told of it."""

    world: World
    names: dict[str, str] = field(default_factory=dict)
    common: Files | None = None
    files: Files = field(default_factory=dict)
    open: str = ""
    each: Each = field(default_factory=Each)
    most: int = ALL
    trial: Trial | None = None
    out: list[str] = field(default_factory=list)

    def words(self, line: str) -> list[str]:
        """What the words of a line stand for."""
        return [said(self.names, word) for word in line.split()]

    def play(self) -> None:
        """Runs the command that waits."""
        if self.trial:
            text, self.files = self.trial.play(self.files)
            self.out.append(f"${self.trial.line}\n{text}\n")
            self.trial = None

    def piece(self, line: str) -> None:
        """A piece of the file that is open."""
        data = self.files[self.open]
        if line.startswith("  text "):
            self.files[self.open] = data + line[7:].encode()
        else:
            self.files[self.open] = with_piece(data, self.words(line.split(" #")[0]), self.files)

    def command(self, line: str) -> None:
        """A command, which waits."""
        self.trial = Trial(self.world, self.each, self.most, line, self.words(line))
        self.each, self.most = Each(), ALL

    def begin(self, line: str) -> None:
        """A heading."""
        if self.common is None:
            self.common = dict(self.files)
        self.files = dict(self.common)
        self.out.append(f"{line}\n\n")

    def prepare(self, line: str) -> None:
        """A line that is no piece, no heading and no command."""
        match line.split():
            case ["let", name, text]:
                self.names[name] = text
            case ["file", name]:
                self.open, self.files[name] = name, b""
            case ["each", kind] if kind in KINDS:
                self.each = EachCall(kind)
            case ["each", "cut", "of", name]:
                self.each = EachCut(name)
            case ["each", "byte", "of", name, *edits]:
                self.each = EachByte(name, edits)
            case ["reads", "give", most]:
                self.most = int(most)
            case _:
                raise BadLine(line)

    def line(self, line: str) -> None:
        """Takes the next line."""
        if not line.strip() or line.strip().startswith("#"):
            return
        if line.startswith("then"):
            if self.trial is None:
                raise BadLine("`then` behind no command")
            self.trial.later.append((line[4:], self.words(line[4:])))
            return
        self.play()
        if line.startswith("  "):
            self.piece(line)
        elif line.startswith("$"):
            self.command(line[1:])
        elif line.startswith("== "):
            self.begin(line)
        else:
            self.prepare(line)


def transcript(text: str, world: World) -> str:
    """What is told of a file of scenarios."""
    stage = Stage(world)
    for line in unrolled(text.splitlines()):
        stage.line(line)
    stage.play()
    return "".join(stage.out)
