"""The words of `clubcardctl ask`, which those of `explain` are too."""

import collections
import errno
import json
import os
import sys
import time
import traceback
from collections.abc import Callable, Sequence
from typing import TYPE_CHECKING, Any, NoReturn, TypeVar

import click

from . import notations
from .known import printed
from .questions import Words
from .verdicts import Answer, Status, status_of
from .words import NoStore

if TYPE_CHECKING:
    from .asking import Away
    from .stores import Opened, OpenedPlaces

Command = TypeVar("Command", bound=Callable[..., Any])
FILE = click.Path()


class Guarded(click.Command):
    """A command whose status 1 says something: nothing else ends with it."""

    def invoke(self, ctx: click.Context) -> Any:
        """Runs it."""
        try:
            return super().invoke(ctx)
        except (click.ClickException, click.exceptions.Exit):
            raise
        except (KeyboardInterrupt, click.Abort):
            sys.exit(Status.STOPPED)
        except Exception as error:  # pylint: disable=broad-except
            if isinstance(error, OSError) and error.errno == errno.EPIPE:
                # Nobody reads on; the interpreter, which ends, mustn't find that too.
                os.dup2(os.open(os.devnull, os.O_WRONLY), sys.stdout.fileno())
            else:
                traceback.print_exc()
            sys.exit(Status.UNFORESEEN)


_OPTIONS = [
    click.option(
        "-i",
        "--issuer-certificate",
        "issuers",
        multiple=True,
        type=FILE,
        metavar="ISSUERCERT",
        help="A file with issuers' certificates. Else the issuer stands behind CERT in its file, or in another CERT.",
    ),
    click.option(
        "--host",
        "hosts",
        multiple=True,
        metavar="NAME[:PORT]",
        help="Take the chain that a TLS server shows; the port is else 443. Whom the server is trusted by isn't "
        "looked at. Of its timestamps those in its certificate are read alone.",
    ),
    click.option(
        "--issuer",
        type=FILE,
        metavar="ISSUER",
        help="With --serial: a file with the issuer's certificate, or its key hash (64 hexadecimal digits).",
    ),
    click.option(
        "--serial",
        metavar="SERIAL",
        help="A serial above 0 as openssl, browsers and crt.sh print it: 04:d0:0a, 0x04d00a, serial=04D00A; d0:0a is "
        "00d00a. Of one below 0 Firefox prints the same octets: give CERT. Decimal digits alone are a decimal number, "
        "but with a 0 in front hexadecimal; where both may be, and the verdicts differ, it is a fault.",
    ),
    click.option(
        "--log",
        "logs",
        multiple=True,
        metavar="LOG",
        help="The log that saw the certificate at --time: its id in hexadecimal, or in Base64. 1 to 64 pairs.",
    ),
    click.option(
        "--time",
        "times",
        multiple=True,
        metavar="TIME",
        help="When --log saw it: ISO 8601 (without an offset in UTC), or milliseconds since 1970. Of a second or a "
        "minute the first and the last millisecond are asked; where they differ it is not-covered.",
    ),
    click.option(
        "--manifest",
        type=FILE,
        metavar="MANIFEST",
        help="The manifest.json that clubcard-update keeps in its state folder.",
    ),
    click.option(
        "--max-away",
        default="10d",
        show_default=True,
        metavar="DURATION",
        help="With --manifest: an issuer that no epoch enrolled for longer than this before MANIFEST's is "
        "not-enrolled, whatever the store says.",
    ),
    click.option("--json", "as_json", is_flag=True, help="Print JSON."),
    click.argument("store", metavar="STORE|DEVICE|FOLDER", type=FILE),
    click.argument("certificates", nargs=-1, metavar="[CERT..]", type=FILE),
]


def asking_words(command: Command) -> Command:
    """Gives a command the words that name a store and certificates."""
    for option in reversed(_OPTIONS):
        command = option(command)
    return command


def words_of(given: dict[str, Any]) -> Words:
    """The words that say what is asked about, of those of a command."""
    names = ("certificates", "hosts", "issuers", "issuer", "serial", "logs", "times")
    words = Words(**{name: given[name] for name in names})
    if not (words.certificates or words.hosts or words.by_serial()):
        raise click.UsageError("Missing argument 'CERT..': name a file, or give --host, or --issuer and --serial.")
    return words


def opened(store: str, manifest: str | None, max_away: str) -> tuple["Opened | OpenedPlaces", "Away | None"]:
    """The store of a name, and who is away by the manifest of another one."""
    most = notations.away(max_away)
    try:
        from . import asking, stores
    except ImportError as error:
        raise NoStore(f"{store}: it can't be asked: {error}") from error
    found = stores.open_store(store)
    if manifest is None:
        return found, None
    read = asking.read_manifest(manifest)
    if not found.is_of(read):
        # clubcard-update replaces the store, and then the manifest.
        time.sleep(1)
        found, read = stores.open_store(store), asking.read_manifest(manifest)
    if not found.is_of(read):
        raise NoStore(f"{manifest} is of another store than {store}: run clubcard-update, or give this store's own")
    return found, asking.Away(read, most)


def _print(answers: Sequence[Answer], as_json: bool) -> None:
    """A line for each verdict, and on standard error faults and what else is to be told; or all of it in JSON."""
    if as_json:
        rows = ",\n ".join(json.dumps(answer.members()) for answer in answers)
        click.echo(f"[{rows}]")
        return
    for answer in answers:
        if answer.verdict is not None:
            click.echo(f"{answer.word} {printed(answer.name)}")
        tell(answer)


def tell(answer: Answer) -> None:
    """Says on standard error what is to be told of an answer."""
    if answer.why:
        click.echo(f"clubcardctl: {printed(answer.why)}", err=True)


def _print_counts(answers: Sequence[Answer], as_json: bool) -> None:
    """How many answers there are of each word; faults are said on standard error."""
    counts = dict(sorted(collections.Counter(answer.word for answer in answers).items()))
    click.echo(json.dumps(counts) if as_json else "\n".join(f"{word}: {count}" for word, count in counts.items()))
    for answer in answers:
        if answer.status is not None:
            tell(answer)


def end(answers: Sequence[Answer]) -> NoReturn:
    """Ends with the status of some answers."""
    if not answers:
        click.echo("clubcardctl: no file holds a certificate to ask about", err=True)
    sys.exit(status_of(answer.status for answer in answers))


@click.command(cls=Guarded)
@asking_words
@click.option("--count", is_flag=True, help="Print how many answers there are of each word, and not which.")
def ask(store: str, manifest: str | None, max_away: str, count: bool, as_json: bool, **given: Any) -> None:
    """Asks STORE, the one in DEVICE, or in FOLDER the one of CERT's place, about each CERT, by its timestamps.

    CERT is a file in PEM or DER, a folder of such files, or - for standard input. Of several certificates in a file the
    first is asked about, and each that is no authority's and issued none of them. Its issuer's certificate must
    have issued it: its key verifies the signature. A line is a verdict and the file's name; what can't be asked is said
    on standard error. Of a certificate that no job accepted either of good and revoked may come (docs/GUIDE.md).

    Status 0: good; 1: revoked; 3: not-covered; 4: not-enrolled; 5: a file holds no certificate, or its issuer isn't
    there; 6: the certificate, its timestamps or SERIAL can't be read; 7: STORE or MANIFEST is none, MANIFEST is of
    another store, or there is no library; 8: a host isn't reached; 2: words. Of several the first that is there of 1,
    7, 5, 8, 6, 4, 3 and 0.
    """
    words = words_of(given)
    found, away = opened(store, manifest, max_away)
    from . import asking

    answers = asking.ask(found.store, words, away)
    kept = [answer for answer in answers if answer.status is not None]
    if count:
        _print_counts(answers, as_json)
    else:
        _print(kept, as_json)
    end(kept)
