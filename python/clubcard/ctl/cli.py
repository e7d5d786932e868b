"""The words of `clubcardctl`: those that make files for the program; those that ask stand in ask_words and
explain_words."""

import sys

import click
from click.shell_completion import BashComplete, FishComplete, ShellComplete, ZshComplete

from ..version import version
from .ask_words import ask
from .explain_words import explain
from .files import issued_pair
from .inspecting import inspect
from .packing import JobWords, pack_job, pack_page, pack_queries
from .words import WordsInFiles

Many = tuple[tuple[str, ...], ...]
_SHELLS: dict[str, type[ShellComplete]] = {"bash": BashComplete, "zsh": ZshComplete, "fish": FishComplete}


@click.group(context_settings={"help_option_names": ["-h", "--help"]})
@click.version_option(version(), "-V", "--version", prog_name="clubcardctl")
def main() -> None:
    """Makes the program's files of certificates and CRLs in PEM or DER, and asks stores by them.

    Status 2: a word or a file is wrong; standard error says which and what to do, and what was to be written is as
    before. `ask`, `explain` and `inspect` have statuses of their own.
    """


main.add_command(inspect)


@main.command(cls=WordsInFiles)
@click.option("--epoch", required=True, metavar="N", help="The number of this job in its history.")
@click.option(
    "--moment",
    required=True,
    metavar="MS",
    help="The time at which it was collected; a CRL whose nextUpdate is before it is out of date.",
)
@click.option(
    "--range",
    "ranges",
    nargs=3,
    multiple=True,
    metavar="LOG FROM TO",
    help="What the job covers of a log: the sightings from FROM to TO, both included. At most one for a log.",
)
@click.option(
    "--crl",
    "crls",
    nargs=2,
    multiple=True,
    metavar="ISSUERCERT CRLFILE",
    help="A CRL, and the certificate of the authority that it speaks for.",
)
@click.option(
    "--certificate",
    "certificates",
    nargs=4,
    multiple=True,
    metavar="CERT ISSUERCERT LOG TIME",
    help="A certificate that a log saw at TIME, and that of its issuer. It becomes an x509 entry (RFC 6962, 3.4 and "
    "4.6) whose chain is the issuer's certificate alone.",
)
@click.option(
    "--entry",
    "entries",
    nargs=3,
    multiple=True,
    metavar="LOG LEAFFILE EXTRAFILE",
    help="A log's entry as it stands: the MerkleTreeLeaf and the extra data, in binary (RFC 6962, 4.6).",
)
@click.argument("job", metavar="JOB", type=click.Path())
def job(epoch: str, moment: str, ranges: Many, crls: Many, certificates: Many, entries: Many, job: str) -> None:
    """Packs CRLs, certificates and log entries into JOB, the publisher's input.

    LOG is a log id, 64 hexadecimal digits. MS, FROM, TO and TIME are milliseconds since 1970-01-01 00:00:00 UTC, of 13
    digits: a number below 1000000000000 (September 2001) is refused, since it is one of seconds. Certificates and CRLs
    are files in DER or in PEM; of several certificates in a file the first is taken, and a CRL's file has one. A word
    @FILE stands for the words in that file, one option to a line, quoted as for a shell.

    Ranges are written in the order of their logs; CRLs, then certificates, then entries in the order of the words. The
    name of a certificate's or a CRL's issuer must be the subject of ISSUERCERT, byte for byte. No signature is
    verified, and whether a CRL is one that the program accepts is found by the program. Until the job is whole it
    stands in JOB.draft.
    """
    click.echo(pack_job(job, JobWords(epoch, moment, ranges, crls, certificates, entries)))


@main.command(cls=WordsInFiles)
@click.option(
    "--certificate",
    "certificates",
    nargs=3,
    multiple=True,
    metavar="CERT ISSUERCERT TIME",
    help="A certificate that the log saw at TIME (milliseconds since 1970), and that of its issuer.",
)
@click.argument("page", metavar="PAGE", type=click.Path())
def page(certificates: Many, page: str) -> None:
    """Makes PAGE, as a log's get-entries answers one (RFC 6962, 4.6), of certificates.

    It stands for a log that there is, to try the program on. Each certificate becomes an x509 entry whose chain is its
    issuer's certificate alone; no signature is made or verified.
    """
    click.echo(pack_page(page, certificates))


@main.command()
@click.argument("queries", metavar="QUERIES", type=click.Path())
def queries(queries: str) -> None:
    """Packs QUERIES, which `clubcard rehearse` asks, of the lines on standard input.

    Each line is one query in the words of `clubcard query`: ISSUER SERIAL, then 1 to 64 pairs LOG TIME; ISSUER and
    SERIAL are as `clubcardctl identity` prints them. Empty lines are passed over.
    """
    click.echo(pack_queries(queries, sys.stdin))


@main.command()
@click.argument("certificate", metavar="CERT", type=click.Path())
@click.argument("issuer", metavar="ISSUERCERT", type=click.Path())
def identity(certificate: str, issuer: str) -> None:
    """Prints the words ISSUER and SERIAL by which `clubcard query` asks about CERT.

    CERT and its issuer's ISSUERCERT are files in DER or PEM; of several certificates in a file the first is taken.
    ISSUER is the SHA-256 of the issuer's subjectPublicKeyInfo, and SERIAL the contents octets of serialNumber as they
    stand, both in hexadecimal. ISSUERCERT must have issued CERT: its key verifies the signature.
    """
    found, authority = issued_pair(certificate, issuer)
    click.echo(f"{authority.key_hash().hex()} {found.serial.hex()}")


@main.command()
@click.argument("shell", metavar="bash|zsh|fish", type=click.Choice(sorted(_SHELLS)))
def completion(shell: str) -> None:
    """Prints what completes the words of clubcardctl in a shell, which reads it.

    In bash and zsh by `eval "$(clubcardctl completion bash)"`, or with zsh in place of bash; in fish by
    `clubcardctl completion fish | source`.
    """
    # The base's own: that of bash runs a bash, and tests its version.
    click.echo(ShellComplete.source(_SHELLS[shell](main, {}, "clubcardctl", "_CLUBCARDCTL_COMPLETE")))


main.add_command(ask)
main.add_command(explain)
