#!/usr/bin/env python3
"""Answers questions, each a line of the standard input, by lines that bindings/compare.py compares with those of the
program and of the other bindings. That file says which questions there are, and how they are answered."""

import mmap
import pathlib
import sys
from typing import Callable, Dict, List, Union

from clubcard import By, Query, Refusal, Refused, Sighting, Store, Verdict, check_part, place


def mapped(name: str) -> Union[bytes, mmap.mmap]:
    """The bytes of a file, where they lie. No bytes can't be mapped."""
    with open(name, "rb") as file:
        return mmap.mmap(file.fileno(), 0, access=mmap.ACCESS_READ) if file.seek(0, 2) else b""


def query_of(words: List[str]) -> Query:
    """ISSUER SERIAL [LOG TIME ..]"""
    issuer, serial, *seen = words
    sightings = [Sighting(bytes.fromhex(log), int(time)) for log, time in zip(seen[::2], seen[1::2])]
    return Query(bytes.fromhex(issuer), bytes.fromhex(serial.replace("-", "")), sightings)


def number_of(answer: Union[Verdict, Refusal]) -> str:
    return str(answer.value)


class Desk:
    """Answers questions, of the store that was named last."""

    def __init__(self) -> None:
        self.store = Store(b"")
        self.questions: Dict[str, Callable[..., str]] = {
            "store": self.open,
            "ask": self.ask,
            "each": self.each,
            "cert": self.cert,
            "until": self.until,
            "place": self.place,
            "part": self.part,
            "install": self.install,
        }

    def answer(self, line: str) -> str:
        """The answer to a line. A refusal has more than a number where it isn't of a query."""
        name, *words = line.split()
        try:
            return self.questions[name](*words)
        except Refused as refused:
            if name in ("ask", "cert"):
                return str(refused.number)
            if name == "place":
                return f"{refused.number} 0"
            return f"{refused.number} {refused.offset} {refused.field or '-'}"

    def open(self, name: str) -> str:
        self.store = Store(mapped(name))
        facts = self.store.examine()
        return f"0 {facts.parts} {facts.newest_epoch}"

    def ask(self, *words: str) -> str:
        query = query_of(list(words))
        return number_of(self.store.query(query.issuer, query.serial, query.sightings))

    def each(self, *words: str) -> str:
        queries = [query_of(text.split()) for text in " ".join(words).split("|")]
        return " ".join(map(number_of, self.store.query_each(queries)))

    def cert(self, cert: str, issuer_cert: str) -> str:
        return number_of(self.store.query_cert(mapped(cert), mapped(issuer_cert)))

    def until(self, log: str) -> str:
        moment = self.store.covered_until(bytes.fromhex(log))
        return "1 0" if moment is None else f"0 {moment}"

    def place(self, by: str, issuer: str, serial: str, count: str) -> str:
        query = query_of([issuer, serial])
        return f"0 {place(By[by.upper()], query.issuer, query.serial, int(count))}"

    def part(self, name: str) -> str:
        part = check_part(mapped(name))
        return f"0 {int(part.is_delta)} {part.epoch} {part.ranges} {part.issuers} {part.trailer.hex()}"

    def install(self, part: str, name: str) -> str:
        made = self.store.install(mapped(part))
        pathlib.Path(name).write_bytes(made)
        return f"0 {len(made)}"


def main() -> int:
    desk = Desk()
    for line in sys.stdin:
        print(desk.answer(line))
    return 0


if __name__ == "__main__":
    sys.exit(main())
