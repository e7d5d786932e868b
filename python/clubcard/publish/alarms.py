"""Alarms: what an operator is to see of an epoch that was published all the same."""

import contextlib
import sys
import threading
from dataclasses import dataclass, field
from typing import Literal, TextIO

from ..telling import one_line

Kind = Literal["issuer", "log", "late", "held", "without", "count", "point", "room", "key", "clock"]
"""issuer: one of CONFIG is left out; log: one isn't followed in this epoch; late: an entry was merged too late by its
log; held: waiting entries hold a rebase back; without: the chain began anew without issuers; count: entries that the
program counts otherwise were set aside; point: a certificate names a distribution point that CONFIG doesn't have; room:
not all fits into the epoch, or a chain is to be split; key: one key stands twice; clock: a time lies ahead."""


@dataclass(frozen=True)
class Alarm:
    """One thing that the operator is to see: its kind, and a text that names issuer and URL, or log, index and serial,
    in one line."""

    kind: Kind
    text: str

    def __str__(self) -> str:
        return f"alarm {self.kind}: {self.text}"


@dataclass
class Alarms:
    """The alarms of one run, each a line on standard error as it comes. Threads may share it."""

    stream: TextIO = field(default_factory=lambda: sys.stderr)
    raised: list[Alarm] = field(default_factory=list)
    lock: threading.Lock = field(default_factory=threading.Lock, repr=False)
    known: set[Alarm] = field(default_factory=set, repr=False)
    """Those that are raised."""

    def add(self, kind: Kind, text: str) -> None:
        """Notes an alarm and prints it. The same alarm again isn't a second one."""
        alarm = Alarm(kind, one_line(text))
        with self.lock:
            if alarm in self.known:
                return
            self.known.add(alarm)
            self.raised.append(alarm)
            # The state keeps it too, so nobody stops an epoch by closing standard error.
            with contextlib.suppress(OSError):
                print(alarm, file=self.stream, flush=True)
