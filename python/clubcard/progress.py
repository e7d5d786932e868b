"""What a person at a terminal sees while a run goes on; nothing where standard error is no terminal."""

import sys
from collections.abc import Iterator
from contextlib import AbstractContextManager, contextmanager
from typing import Protocol

from rich.console import Console
from rich.progress import BarColumn, MofNCompleteColumn, Progress as Bars, TaskID, TextColumn, TimeElapsedColumn


class Task(Protocol):
    """A step that goes on."""

    def advance(self, count: int = 1) -> None:
        """So many more are done."""


class Progress(Protocol):
    """Shows steps, also those of several threads side by side."""

    def task(self, name: str, total: int | None = None) -> AbstractContextManager[Task]:
        """Shows a step as long as the context lasts: its name, and how many of `total` are done (None: not known)."""


class _Still:
    def advance(self, count: int = 1) -> None:
        """Shows nothing."""


class Silent:
    """Shows nothing."""

    @contextmanager
    def task(self, name: str, total: int | None = None) -> Iterator[Task]:
        """A step that nobody sees."""
        yield _Still()


class _Bar:
    def __init__(self, bars: Bars, number: TaskID) -> None:
        self._bars, self._number = bars, number

    def advance(self, count: int = 1) -> None:
        """Moves the bar on."""
        self._bars.advance(self._number, count)


class Terminal:
    """Bars on a terminal."""

    def __init__(self, bars: Bars) -> None:
        self._bars = bars

    @contextmanager
    def task(self, name: str, total: int | None = None) -> Iterator[Task]:
        """A bar that goes away with its step."""
        number = self._bars.add_task(name, total=total)
        self._bars.refresh()
        try:
            yield _Bar(self._bars, number)
        finally:
            self._bars.remove_task(number)


@contextmanager
def shown() -> Iterator[Progress]:
    """The progress of a command: bars where standard error is a terminal."""
    if not sys.stderr.isatty():
        yield Silent()
        return
    columns = (TextColumn("{task.description}"), BarColumn(), MofNCompleteColumn(), TimeElapsedColumn())
    with Bars(*columns, console=Console(stderr=True, soft_wrap=True), transient=True) as bars:
        yield Terminal(bars)
