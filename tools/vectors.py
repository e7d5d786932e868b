#!/usr/bin/env python3
"""The transcript that crates/vectors must print of files of calls, by tools/reference.py and the rules of
docs/FORMATS.md alone. With --write it goes to crates/vectors/stdout.

    tools/vectors.py [--write] [FILE ..]
"""

from collections.abc import Sequence
from types import SimpleNamespace

from reference import System, issuer_place, place, row, shard, words_for
from scenarios import main
from vector_filter import FilterCalls
from vector_reading import Reading


def told(places: Sequence[int | None]) -> str:
    return " ".join("none" if number is None else str(number) for number in places)


class Calls(Reading, FilterCalls):
    """The calls, by their names."""

    def solved(self, starts: int, planes: int, equations: Sequence[str]) -> tuple[list[int], str]:
        """The systems of the planes of some equations, and which of these are kept."""
        systems, out = [System() for _ in range(planes)], "equations"
        for equation in equations:
            start, coeff, target = equation.split(":")
            chosen, bits = int(coeff, 16) << int(start), [int(target) >> plane & 1 for plane in range(planes)]
            if all(system.reduce(chosen, bit) != (0, 1) for system, bit in zip(systems, bits)):
                for system, bit in zip(systems, bits):
                    system.add(chosen, bit)
                out += " kept"
            else:
                out += " contradicted"
        return [system.least(starts + 127) for system in systems], out

    def system(self, starts: str, planes: str, *equations: str) -> str:
        least, out = self.solved(int(starts), int(planes), equations)
        for columns in least:
            words = [columns >> (64 * i) & (2**64 - 1) for i in range(words_for(int(starts)))]
            out += " plane" + "".join(f" {word:x}" for word in words)
        return out

    def sums(self, starts: str, planes: str, rows: str, *equations: str) -> str:
        least, out = self.solved(int(starts), int(planes), equations)
        out += " sums"
        for word in rows.split(","):
            start, coeff = word.split(":")
            chosen = int(coeff, 16) << int(start)
            bits = [(columns & chosen).bit_count() & 1 for columns in least]
            out += f" {sum(bit << plane for plane, bit in enumerate(bits))}"
        return out

    def row(self, stage: str, seed: str, issuer: str, serial: str, starts: str) -> str:
        octets = bytes.fromhex(serial)
        start, coeff, tag = row(int(stage), int(seed), (bytes.fromhex(issuer), len(octets), octets), int(starts))
        return f"start {start} coeff {coeff:032x} tag {tag:04x}"

    def shards(self, issuer: str, serial: str) -> str:
        octets = bytes.fromhex(serial)
        identity = (bytes.fromhex(issuer), len(octets), octets)
        return "shards" + "".join(f" {shard(identity, shift)}" for shift in range(9))

    def places(self, issuer: str, serial: str, *counts: str) -> str:
        key, octets = bytes.fromhex(issuer), bytes.fromhex(serial)
        by_identity = [place((key, len(octets), octets), int(count)) for count in counts]
        by_issuer = [issuer_place(key, int(count)) for count in counts]
        return f"by identity {told(by_identity)}\nby issuer {told(by_issuer)}"

    def run(self, words: Sequence[str]) -> SimpleNamespace:
        """What is told of the call of some words."""
        printed = getattr(self, words[0].replace("-", "_"))(*words[1:]) + "\n"
        return SimpleNamespace(status=None, printed=printed, changed={})


if __name__ == "__main__":
    main("vectors", Calls)
