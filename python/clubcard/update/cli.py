"""The words of `clubcard-update`."""

import sys
from pathlib import Path

import click

from ..moments import NOW, moment_of
from ..progress import shown
from ..version import version
from . import config as configuration, run as running


def _say(text: str) -> None:
    """A line on standard error."""
    click.echo(f"clubcard-update: {text}", err=True)


@click.command(context_settings={"help_option_names": ["-h", "--help"]})
@click.version_option(version(), "-V", "--version", prog_name="clubcard-update")
@click.argument("file", metavar="CONFIG", type=click.Path(path_type=Path))
@NOW
def main(file: Path, now: int | None) -> None:
    """Makes the store of CONFIG the one that its site publishes.

    Status 0: it is; 2: words, CONFIG, its state or a program; 3: it is past its time; 4: what the site says is refused;
    5: not reached, and the store is still in time; 6: another run holds the lock. With each but 0 the store stays as it
    was, and a line on standard error says why and what to do. 1 is left to what nobody foresaw.
    """
    try:
        config = configuration.load(file)
        with shown() as bars:
            outcome = running.run(config, moment_of(now), progress=bars)
    except configuration.ConfigError as fault:
        _say(str(fault))
        sys.exit(running.WRONG_WORDS)
    except KeyboardInterrupt:
        _say("stopped by a key; the store is as it was, or the manifest's; run again")
        sys.exit(running.NOT_REACHED)
    if outcome.hint is not None:
        _say(outcome.hint)
    if outcome.status == running.DONE:
        click.echo(outcome.line)
    else:
        _say(outcome.line)
    sys.exit(outcome.status)
