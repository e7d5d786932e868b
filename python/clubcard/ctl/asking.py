"""Asks a store about certificates: by their files, by what hosts show, and by serials."""

import sys
from collections.abc import Iterator, Sequence
from dataclasses import dataclass, replace
from pathlib import Path
from typing import TypeVar

import click

from ..answers import Refusal, Refused, Verdict
from ..fleet import Fleet, FleetError
from ..pki import Certificate, PkiError, timestamps
from ..manifest import Manifest, ManifestError, from_json
from ..store import Query, Sighting, Store
from ..times import to_iso
from .questions import NO_ISSUER, Asked, Placed, Words, given_issuers, issuer_of, read_files, read_hosts
from .stores import remedy_of
from .verdicts import Answer, Identity, Status, word_of
from .words import NoStore

Item = TypeVar("Item")
Held = Store | Fleet
"""What is asked."""
# From so many certificates on a bar is shown.
_MANY = 200
TWO_SERIALS = "two-serials"
_OF_THE_STORE = (Refusal.NO_MEMORY, Refusal.UNKNOWN)


@dataclass(frozen=True)
class Away:
    """Which issuers are away, by the manifest that clubcard-update kept: those that it doesn't name, and those that no
    epoch enrolled in the last `most` milliseconds before its moment."""

    manifest: Manifest
    most: int

    def why(self, issuer: bytes) -> str | None:
        """Why an issuer (32 bytes) is away, and None where it isn't."""
        named = next((each for each in self.manifest.issuers if each.issuer == issuer), None)
        if named is None:
            return "the manifest has no such issuer any more"
        if named.enrolled_at is None:
            return "no epoch ever enrolled it"
        if self.manifest.moment - named.enrolled_at <= self.most:
            return None
        return f"{named.name} was last enrolled at {to_iso(named.enrolled_at)} ({named.reason})"

    def judged(self, answer: Answer) -> Answer:
        """An answer, of which what the store says of an issuer that is away counts for nothing."""
        if answer.identity is None or answer.verdict not in (Verdict.GOOD, Verdict.REVOKED):
            return answer
        why = self.why(answer.identity.issuer)
        if why is None:
            return answer
        told = f"{answer.name}: the store says {answer.word}, but its issuer is away: {why}; ask in another way"
        return replace(answer, status=Status.NOT_ENROLLED, verdict=Verdict.NOT_ENROLLED, held=answer.verdict, why=told)


def read_manifest(name: str) -> Manifest:
    """The manifest in a file."""
    remedy = "give the manifest.json that clubcard-update keeps in its state folder"
    try:
        return from_json(Path(name).read_bytes())
    except (OSError, ManifestError) as error:
        why = error.strerror if isinstance(error, OSError) else error
        raise NoStore(f"{name}: this manifest isn't read ({why}); {remedy}") from error


def answers_of(store: Held, identities: Sequence[Identity]) -> list[Verdict | Refusal]:
    """What a store says of each."""
    queries = [
        Query(each.issuer, each.serial, [Sighting(log, time) for log, time in each.sightings]) for each in identities
    ]
    try:
        return store.query_each(queries)
    except Refused as refused:
        raise NoStore(f"the store isn't read ({refused}); {remedy_of(refused.refusal)}") from refused
    except FleetError as error:
        raise NoStore(str(error)) from error


def _unread(store: Held, asked: Asked, issuer: Certificate) -> Answer:
    """What is said of a certificate that has no timestamps, or isn't read: what the library says of it."""
    identity = Identity(issuer.key_hash(), asked.certificate.serial, ())
    try:
        own = store.store_of(identity.issuer, identity.serial) if isinstance(store, Fleet) else store
        verdict = own.query_cert(asked.certificate.der, issuer.der)
    except Refused as refused:
        return _refused(Answer(asked.name, None), refused.refusal)
    except FleetError as error:
        raise NoStore(str(error)) from error
    return Answer(asked.name, Status[verdict.name], verdict, identity=identity)


def _refused(answer: Answer, refusal: Refusal) -> Answer:
    """An answer with why there is no verdict."""
    status = Status.NO_STORE if refusal in _OF_THE_STORE else Status.UNREAD
    return replace(answer, status=status, fault=word_of(refusal), why=f"{answer.name}: {remedy_of(refusal)}")


def _identified(store: Held, asked: Asked, given: Sequence[Placed], others: Sequence[Certificate]) -> Answer:
    """A certificate with what to ask of it, or why it can't be asked about."""
    try:
        issuer = issuer_of(asked, given, others)
    except PkiError as error:
        return Answer(asked.name, Status.NO_CERTIFICATE, fault=NO_ISSUER, why=str(error))
    try:
        seen = timestamps(asked.certificate.der)
    except PkiError:
        seen = []
    if not seen:
        return _unread(store, asked, issuer)
    return Answer(asked.name, None, identity=Identity(issuer.key_hash(), asked.certificate.serial, tuple(seen)))


def _shown(items: Sequence[Item]) -> Iterator[Item]:
    """The items; where they are many, and standard error is a terminal, a bar there shows how many are done."""
    if len(items) < _MANY or not sys.stderr.isatty():
        yield from items
        return
    with click.progressbar(items, file=sys.stderr, show_pos=True) as bar:
        yield from bar


def identified(store: Held, words: Words) -> Iterator[Answer]:
    """What words name, each with what to ask of it, or with the whole answer where it can't be asked about."""
    by_serial = words.by_serial()
    given = given_issuers(words.issuers)
    found = [*read_files(words.certificates), *read_hosts(words.hosts)]
    others: dict[bytes, dict[Certificate, None]] = {}
    for asked in (each for each in found if isinstance(each, Asked)):
        for certificate in (asked.certificate, *(each.certificate for each in asked.chain)):
            others.setdefault(certificate.subject, {})[certificate] = None
    for each in _shown(found):
        same_name = [] if isinstance(each, Answer) else list(others.get(each.certificate.issuer, ()))
        yield each if isinstance(each, Answer) else _identified(store, each, given, same_name)
    if by_serial is not None:
        yield Answer(f"serial {by_serial.serial.hex()}", None, identity=by_serial)


def _at_both_ends(store: Held, identity: Identity) -> list[Verdict | Refusal]:
    """What a store says of a serial at the first and at the last of the times that its words may be."""
    return answers_of(store, [identity, replace(identity, sightings=identity.latest)])


def _with_verdict(store: Held, answer: Answer, said: Verdict | Refusal) -> Answer:
    """An answer with what the store says. Where words may be another serial, of which it says another thing, it is a
    fault; where they may be another time, it is not-covered."""
    if isinstance(said, Refusal):
        return _refused(answer, said)
    identity = answer.identity
    if identity is None or not identity.latest:
        return replace(answer, status=Status[said.name], verdict=said)
    ends = _at_both_ends(store, identity)
    if identity.other is not None:
        others = _at_both_ends(store, replace(identity, serial=identity.other))
        if others != ends:
            digits = " or ".join(f"0x{each.hex()}" for each in (identity.serial, identity.other))
            why = f"--serial may be a decimal number or hexadecimal digits, and the verdicts differ: write {digits}"
            return Answer(answer.name, Status.UNREAD, fault=TWO_SERIALS, why=why)
    if ends[0] is not ends[1]:
        why = f"{answer.name}: at the first millisecond of --time it is {word_of(ends[0])}, at the last"
        why = f"{why} {word_of(ends[1])}: write the milliseconds too"
        return replace(answer, status=Status.NOT_COVERED, verdict=Verdict.NOT_COVERED, why=why)
    return replace(answer, status=Status[said.name], verdict=said)


def ask(store: Held, words: Words, away: Away | None = None) -> list[Answer]:
    """What a store says of all that words name."""
    found = list(identified(store, words))
    wanted = [each.identity for each in found if each.identity is not None and each.is_open]
    said = iter(answers_of(store, wanted) if wanted else [])
    answers = [_with_verdict(store, each, next(said)) if each.is_open else each for each in found]
    return answers if away is None else [away.judged(each) for each in answers]
