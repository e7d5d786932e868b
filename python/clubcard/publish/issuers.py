"""The CRLs of the issuers of CONFIG: fetched side by side, vetted, and the newest accepted one of each URL kept.

An epoch enrols an issuer with all of its CRLs or not at all: with some of them its other certificates would read `good`
whatever the rest lists.
"""

import hashlib
from collections.abc import Mapping
from concurrent.futures import FIRST_COMPLETED, Future, ThreadPoolExecutor, wait
from dataclasses import dataclass

from .. import crls
from ..http import MOST_CRL, Client, FetchError
from ..progress import Progress
from ..telling import one_line
from ..times import MINUTE, nearest_iso
from .config import Config, Issuer
from .kept import KeptCrl, Tried, in_time, is_older, kept_crls, note, said_before, tries
from .state import State

__all__ = ["Enrolment", "KeptCrl", "Lack", "enrolled", "fetch_crls"]

SIDE_BY_SIDE = 16
"""How many CRLs are fetched at once."""
AHEAD = MINUTE
"""How far ahead of the run's moment a CRL's thisUpdate may lie, for clocks that differ."""
REMEDY = (
    "the issuer comes back by itself once this URL brings its CRL; where the authority changed it, correct certificate,"
    " crls and names in CONFIG"
)


@dataclass(frozen=True)
class Lack:
    """A CRL for want of which an issuer is left out."""

    issuer: bytes
    name: str
    url: str
    why: str

    def __str__(self) -> str:
        return f'"{self.name}" is left out: {self.url}: {self.why}: {REMEDY}'


@dataclass(frozen=True)
class Enrolment:
    """Which issuers an epoch enrols."""

    crls: Mapping[bytes, tuple[KeptCrl, ...]]
    """Per enrolled issuer hash all of its CRLs, in the order of CONFIG; each is in time at the epoch's moment."""
    left: Mapping[bytes, str]
    """Per issuer hash of CONFIG that is left out: why, in one line."""
    lacks: tuple[Lack, ...] = ()
    """Which CRLs the issuers lack that are left out."""


def fetch_crls(config: Config, state: State, moment: int, client: Client, progress: Progress) -> None:
    """Asks each URL of each issuer for a newer CRL, side by side, and keeps what is accepted (tables crl, crl_try).
    What can't be fetched or isn't accepted leaves what is kept as it was; why is noted in crl_try."""
    jobs: dict[bytes, list[Future[Tried]]] = {}
    urls = sum(len(issuer.crls) for issuer in config.issuers)
    with progress.task("CRLs", urls) as task, ThreadPoolExecutor(SIDE_BY_SIDE) as threads:
        try:
            for issuer in config.issuers:
                fetch = _Fetch(issuer, state, moment, client)
                jobs[issuer.key] = [threads.submit(fetch, url) for url in issuer.crls]
            waiting = {future for futures in jobs.values() for future in futures}
            while waiting:
                done, waiting = wait(waiting, return_when=FIRST_COMPLETED)
                task.advance(len(done))
                _take_whole(config, state, moment, jobs, waiting)
        finally:
            threads.shutdown(wait=False, cancel_futures=True)


def _take_whole(
    config: Config, state: State, moment: int, jobs: dict[bytes, list[Future[Tried]]], waiting: set[Future[Tried]]
) -> None:
    """Takes what came for each issuer all of whose tries have ended, and strikes it out of the jobs."""
    for issuer in config.issuers:
        if issuer.key in jobs and not waiting.intersection(jobs[issuer.key]):
            _take(state, issuer, moment, [future.result() for future in jobs.pop(issuer.key)])


class _Fetch:
    """Fetches CRLs of one issuer. It is called in threads, and reads the database before these begin."""

    def __init__(self, issuer: Issuer, state: State, moment: int, client: Client) -> None:
        self._issuer, self._state, self._moment, self._client = issuer, state, moment, client
        self._kept = kept_crls(state, issuer)
        self._said = said_before(state, issuer)

    def __call__(self, url: str) -> Tried:
        kept = self._kept.get(url)
        etag, modified = self._condition(kept)
        try:
            answer = self._client.get(url, MOST_CRL, etag, modified)
            if answer.status == 304:
                return Tried(url, etag, modified)
            crl = _vet(self._issuer, url, answer.body)
        except FetchError as fault:
            return Tried(url, why=fault.why)
        except crls.CrlRefused as fault:
            return Tried(url, why=str(fault))
        except (ArithmeticError, LookupError, TypeError, ValueError) as fault:
            # What nobody foresaw of one server's bytes stops no other issuer.
            return Tried(url, why=f"it can't be read ({type(fault).__name__}: {fault})")
        why = _untimely(crl, self._moment)
        if why is not None:
            return Tried(url, why=why)
        sha256 = hashlib.sha256(crl.der).digest()
        if kept is not None and kept.sha256 == sha256:
            return Tried(url, answer.etag, answer.modified)
        return Tried(url, answer.etag, answer.modified, self._write(url, crl, sha256))

    def _condition(self, kept: KeptCrl | None) -> tuple[str | None, str | None]:
        """ETag and Last-Modified of a kept CRL that is in time. Behind that the whole file is asked for, so that a
        server that wrongly says that nothing is newer leaves nobody out."""
        if kept is None or not in_time(kept.next_update, self._moment):
            return None, None
        return self._said.get(kept.url, (None, None))

    def _write(self, url: str, crl: crls.Crl, sha256: bytes) -> KeptCrl:
        """Writes a new CRL; it is kept once a row names its file."""
        path = self._state.new_file("crls", ".crl")
        path.write_bytes(crl.der)
        self._state.keep(path)
        asked = _asked(self._issuer, url)
        return KeptCrl(self._issuer.key, url, path, crl.number, crl.this_update, crl.next_update, sha256, asked)


def _vet(issuer: Issuer, url: str, octets: bytes) -> crls.Crl:
    """The CRL that these bytes are, where it is acceptable as that of a URL. Raises CrlRefused."""
    return crls.vet(octets, issuer.certificates, url, issuer.names, len(issuer.crls) == 1)


def _asked(issuer: Issuer, url: str) -> bytes:
    """The digest of all of CONFIG on which it depends whether a CRL is acceptable as that of a URL."""
    asked = (sorted(issuer.certificates), issuer.names.get(url, url), len(issuer.crls) == 1)
    return hashlib.sha256(repr(asked).encode("utf-8")).digest()


def _untimely(crl: crls.Crl, moment: int) -> str | None:
    """Why a CRL's times don't fit the moment."""
    if crl.this_update > moment + AHEAD:
        return f"its thisUpdate {nearest_iso(crl.this_update)} lies ahead of {nearest_iso(moment)}"
    if crl.next_update is not None and not in_time(crl.next_update, moment):
        return f"it is out of time since {nearest_iso(crl.next_update)}"
    return None


def _take(state: State, issuer: Issuer, moment: int, tries: list[Tried]) -> None:
    """Keeps the new CRLs of an issuer that are to be, and notes each try, in one transaction."""
    kept = kept_crls(state, issuer)
    judged = [_judged(each, kept, tries, moment) for each in tries]
    with state.transaction() as db:
        number = state.issuer_id(issuer.key)
        old = [note(db, state, number, moment, each) for each in judged]
    refused = {each.new.file for each in tries if each.new is not None}
    refused -= {each.new.file for each in judged if each.new is not None}
    for path in refused.union(path for path in old if path is not None):
        path.unlink(missing_ok=True)


def _judged(tried: Tried, kept: Mapping[str, KeptCrl], tries: list[Tried], moment: int) -> Tried:
    """A try without its new CRL where this isn't to be kept, and then with the reason."""
    new, url = tried.new, tried.url
    if new is None:
        return tried
    others = [each for each in kept.values() if each.url != url]
    others += [each.new for each in tries if each.new is not None and each.url != url]
    same = [each.url for each in others if each.sha256 == new.sha256]
    if same:
        return Tried(url, why=f"{same[0]} brought the same CRL: each URL in crls has a CRL of its own")
    before = kept.get(url)
    if before is not None and is_older(new, before, moment):
        said, had = (f"number {each.number}, {nearest_iso(each.this_update)}" for each in (new, before))
        return Tried(url, why=f"it is older ({said}) than the kept one ({had})")
    return tried


def enrolled(config: Config, state: State, moment: int) -> Enrolment:
    """Each issuer with all of its CRLs, kept, acceptable under CONFIG and in time at `moment`, or left out."""
    taken: dict[bytes, tuple[KeptCrl, ...]] = {}
    lacks: list[Lack] = []
    for issuer in config.issuers:
        kept, last = kept_crls(state, issuer), tries(state, issuer)
        found = {url: _lack(issuer, kept.get(url), last.get(url, (0, None))[1], moment) for url in issuer.crls}
        missing = [Lack(issuer.key, issuer.name, url, why) for url, why in found.items() if why is not None]
        lacks += missing
        if not missing:
            taken[issuer.key] = tuple(kept[url] for url in issuer.crls)
    left = {lack.issuer: f"{lack.url}: {lack.why}" for lack in reversed(lacks)}
    return Enrolment(taken, left, tuple(lacks))


def _lack(issuer: Issuer, kept: KeptCrl | None, why: str | None, moment: int) -> str | None:
    """Why there is no CRL of a URL for an epoch of this moment; None where there is one."""
    if kept is None:
        return f"none was accepted yet: {why or 'it was never asked for'}"
    try:
        if kept.asked != _asked(issuer, kept.url):
            _vet(issuer, kept.url, kept.file.read_bytes())
    except crls.CrlRefused as fault:
        return one_line(f"the kept one isn't accepted under this CONFIG: {fault}")
    if kept.next_update is not None and not in_time(kept.next_update, moment):
        last = f"; the last try: {why}" if why else ""
        return f"the newest accepted one is out of time since {nearest_iso(kept.next_update)}{last}"
    return None
