"""The words of `clubcardctl explain`."""

import json
from typing import Any

import click

from .ask_words import Guarded, asking_words, end, opened, tell, words_of


@click.command(cls=Guarded)
@asking_words
def explain(store: str, manifest: str | None, max_away: str, as_json: bool, **given: Any) -> None:
    """Tells which part of STORE, of the one in DEVICE, or in FOLDER of the one of CERT's place, says what of each CERT.

    CERT and the words in its place are those of `ask`, and so are the statuses. Told are the verdict; since which part
    the certificate is revoked; of each timestamp, since which part and by which range it is covered; and of each part
    what it covers, whether it has the issuer, and what it says. A part is named by its place from 0, and by its epoch.
    A store doesn't have the moments of epochs: that of the newest one stands in MANIFEST, and for the others it is told
    up to which time they cover.
    """
    words = words_of(given)
    found, away = opened(store, manifest, max_away)
    from . import asking, explaining

    kept = [answer for answer in asking.ask(found.store, words, away) if answer.status is not None]
    moments = {away.manifest.epoch: away.manifest.moment} if away else {}
    explained = explaining.explain_by(found, kept, moments)
    if as_json:
        click.echo("[" + ",\n ".join(json.dumps(each.members()) for each in explained) + "]")
    for each in () if as_json else explained:
        for line in each.lines():
            click.echo(line)
        tell(each.answer)
    end(kept)
