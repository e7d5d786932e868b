"""The words of `clubcard-publish`.

Statuses: 0 published; 10 published with alarms; 2 words or CONFIG; 3 no epoch was made, and the site is as it was; 4
another run holds the lock. 1 is left to what nobody foresaw.
"""

import contextlib
import sqlite3
import sys
from collections.abc import Iterator
from pathlib import Path
from typing import NoReturn

import click

from ..minisign import MinisignError
from ..moments import NOW, moment_of
from ..progress import shown as progress
from ..version import version
from . import checks, config as configuration, demo as demonstration, init as beginning, run as running, status as shown
from .state import State, StateError

CONFIG = click.argument("file", metavar="CONFIG", type=click.Path(path_type=Path))
FOLDER = click.argument("folder", metavar="FOLDER", type=click.Path(path_type=Path))


def _stop(status: int, text: str) -> NoReturn:
    """Ends with a status and a line on standard error."""
    click.echo(f"clubcard-publish: {text}", err=True)
    sys.exit(status)


def _loaded(file: Path) -> configuration.Config:
    try:
        return configuration.load(file)
    except configuration.ConfigError as fault:
        _stop(running.WRONG_WORDS, str(fault))


@contextlib.contextmanager
def _told(folder: Path) -> Iterator[None]:
    """Tells what an operator can cause and mend."""
    try:
        yield
    except (StateError, MinisignError, beginning.InitError, demonstration.DemoError) as fault:
        _stop(running.NO_EPOCH, str(fault))
    except (OSError, sqlite3.Error) as fault:
        _stop(running.NO_EPOCH, running.told(fault, folder))
    except KeyboardInterrupt:
        _stop(running.NO_EPOCH, "stopped by a key; nothing is lost, run again")


def _end(outcome: running.Outcome) -> NoReturn:
    """Ends as a run did."""
    if outcome.why is not None:
        _stop(outcome.status, outcome.why)
    row = outcome.row
    if row is not None:
        counts = f"shown {row.shown} waiting {row.waiting} universe {row.universe} revoked {row.revoked}"
        click.echo(f"epoch {row.epoch} generation {row.generation} parts {row.parts} {counts}")
    sys.exit(outcome.status)


@click.group(context_settings={"help_option_names": ["-h", "--help"]})
@click.version_option(version(), "-V", "--version", prog_name="clubcard-publish")
def main() -> None:
    """Publishes pushed certificate revocation: CRLs and log entries become parts, a manifest and a site.

    Status 0: published; 10: published with alarms, each a line on standard error; 2: words or CONFIG; 3: no epoch was
    made, and the site is as it was; 4: another run holds the lock.
    """


@main.command()
@FOLDER
def init(folder: Path) -> None:
    """Writes an example CONFIG and a key into FOLDER."""
    with _told(folder):
        for file in beginning.write_example(folder):
            click.echo(file)


@main.command()
@CONFIG
def check(file: Path) -> None:
    """Tests CONFIG, its keys, the program and the folders; nothing is fetched."""
    config = _loaded(file)
    with _told(config.state):
        found = list(checks.checks(config))
    for each in found:
        click.echo(each.text, err=each.is_fault)
    sys.exit(running.WRONG_WORDS if any(each.is_fault for each in found) else 0)


@main.command()
@CONFIG
@NOW
def fetch(file: Path, now: int | None) -> None:
    """Fetches CRLs and entries, and makes no epoch."""
    config = _loaded(file)
    with _told(config.state), progress() as bars:
        outcome = running.fetch(config, moment_of(now), progress=bars)
    _end(outcome)


@main.command()
@CONFIG
@NOW
def run(file: Path, now: int | None) -> None:
    """Fetches, makes one epoch, and publishes it."""
    config = _loaded(file)
    with _told(config.state), progress() as bars:
        outcome = running.run(config, moment_of(now), progress=bars)
    _end(outcome)


@main.command()
@CONFIG
def split(file: Path) -> None:
    """Splits the chain into the places of CONFIG, and publishes them; nothing is fetched."""
    config = _loaded(file)
    with _told(config.state), progress() as bars:
        outcome = running.split(config, progress=bars)
    _end(outcome)


@main.command()
@CONFIG
@NOW
@click.option("--json", "as_json", is_flag=True, help="Prints JSON.")
def status(file: Path, now: int | None, as_json: bool) -> None:
    """Prints the chain, its last epochs, issuers, logs, and what waits and since when."""
    config = _loaded(file)
    if not (config.state / "state.sqlite").exists():
        _stop(running.NO_EPOCH, f"{config.state}: there is no state yet: begin with `clubcard-publish run {file}`")
    with _told(config.state), contextlib.closing(State.open(config.state)) as state:
        found = shown.gather(config, state, moment_of(now))
    click.echo(shown.to_json(found) if as_json else "\n".join(shown.lines(found)))


@main.command()
@FOLDER
@click.option("--program", default="clubcard", show_default=True, help="The program, by PATH or by its path.")
def demo(folder: Path, program: str) -> None:
    """Runs a small publisher in FOLDER: authorities, a log, four epochs, and questions to what it published."""
    with _told(folder):
        sys.exit(demonstration.run_demo(folder, program, click.echo))
