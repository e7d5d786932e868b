"""What the words of a call of the program ask for, by docs/FORMATS.md ("Words") alone."""

from collections.abc import Callable

from scenario_words import Usage, apart, by, identity, key, keys, name, names, number, place_of, sightings, workers

# The words behind a command: names of files that are read and written, a number, a key, a way, a count of workers, and
# names up to so many, names that are written, or keys.
SHAPES = {
    "snapshot": "read write write workers",
    "delta": "read read write write workers",
    "rebase": "read number write write workers",
    "rebase-without": "read number write write workers keys",
    "start": "read write",
    "install": "read read write",
    "query-cert": "read read read",
    "check": "read",
    "show": "read",
    "rehearse": "read workers 64",
    "gather": "read key write 1024",
    "merge": "read write 1024",
    "cut": "by read writes",
    "audit": "read 64",
}


def test_shape(shape: str, words: list[str]) -> None:
    """Refuses words that aren't of the shape."""
    read: list[str] = []
    written: list[str] = []
    tests: dict[str, Callable[[str], object]]
    tests = {"read": read.append, "write": written.append, "workers": workers, "number": number, "key": key, "by": by}
    rest = list(words)
    for kind in shape.split():
        if kind.isdecimal():
            read += names(rest, int(kind))
            rest = []
        elif kind == "writes":
            written += names(rest, 1024)
            rest = []
        elif kind == "keys":
            keys(rest, 1024)
            rest = []
        elif rest:
            tests[kind](rest.pop(0))
        else:
            raise Usage
    if rest:
        raise Usage
    for word in read + written:
        name(word)
    if written:
        apart(written, read)


def command_text(words: list[str]) -> str:
    """The command that words are; of a query its certificate and its sightings, of a sample its two numbers, of a place
    by what it is, the certificate and the count, of a split the moment, by what it is, the place and the count."""
    match words:
        case ["query", store, issuer, digits, *seen]:
            name(store)
            _, _, octets = identity(issuer, digits)
            out = f"query issuer {key(issuer).hex()} serial {octets.hex()}"
            return out + "".join(f" log {log.hex()} time {time}" for log, time in sightings(seen))
        case ["sample", which, count, job]:
            name(job)
            return f"sample {number(which)} entries {number(count, 1, 1000000)}"
        case ["place", way, issuer, digits, count]:
            _, _, octets = identity(issuer, digits)
            out = f"place by {by(way).capitalize()} issuer {key(issuer).hex()} serial {octets.hex()}"
            return f"{out} of {number(count, 1, 65536)}"
        case ["split", ledger, moment, way, places, here, *rest]:
            test_shape("read write write workers", [ledger, *rest])
            many, at = place_of(places, here)
            return f"split at {number(moment)} by {by(way).capitalize()} place {at} of {many}"
        case [command, *rest] if command in SHAPES:
            test_shape(SHAPES[command], rest)
            return "command"
    raise Usage
