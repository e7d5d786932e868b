"""`clubcard-publish demo`: a small publisher at once, with authorities, a log and a site on loopback."""

import hashlib
import json
import random
import subprocess
import threading
import time
from base64 import b64encode
from collections.abc import Callable, Iterator
from contextlib import contextmanager
from dataclasses import dataclass
from http.server import BaseHTTPRequestHandler, ThreadingHTTPServer
from pathlib import Path
from urllib.parse import parse_qs, urlsplit
from urllib.request import ProxyHandler, build_opener

from .. import minisign
from ..answers import Verdict
from ..engine import Engine, EngineError
from ..manifest import Manifest, from_json
from ..times import HOUR, MINUTE, SECOND, to_iso
from . import init
from .config import Config, load
from .demo_world import Authority, Certificate, DemoLog
from .run import run

CERTIFICATES = 300
EPOCHS = 4
STEP = 6 * HOUR
MMD = HOUR
_FIRST = 180
_STATUSES = (0, 10)


class DemoError(Exception):
    """The demonstration couldn't go on. `remedy` says what to do."""

    def __init__(self, what: str, remedy: str) -> None:
        super().__init__(f"{what}: {remedy}")
        self.what = what
        self.remedy = remedy


class _Web(ThreadingHTTPServer):
    """The site, the CRLs and the log's answers, on a free port of loopback."""

    daemon_threads = True

    def __init__(self, site: Path) -> None:
        super().__init__(("127.0.0.1", 0), _Handler)
        self.site, self.log = site, DemoLog()
        self.crls: dict[str, bytes] = {}
        self.base = f"http://127.0.0.1:{self.server_port}/"

    def answer(self, path: str, words: dict[str, list[str]]) -> bytes | None:
        """What stands at a path; None where nothing does."""
        if path == "/log/ct/v1/get-sth":
            return json.dumps(self.log.head).encode()
        if path == "/log/ct/v1/get-entries":
            return json.dumps(self.log.page(int(words["start"][0]), int(words["end"][0]))).encode()
        file = self.site / path.removeprefix("/site/")
        if path.startswith("/site/") and file.resolve().is_relative_to(self.site.resolve()) and file.is_file():
            return file.read_bytes()
        return self.crls.get(path)


class _Handler(BaseHTTPRequestHandler):
    """Answers from the server that it belongs to."""

    server: _Web

    def do_GET(self) -> None:
        """One answer, 200 or 404."""
        parts = urlsplit(self.path)
        body = self.server.answer(parts.path, parse_qs(parts.query))
        self.send_response(404 if body is None else 200)
        self.send_header("Content-Length", str(len(body or b"")))
        self.end_headers()
        self.wfile.write(body or b"")

    def log_message(self, format: str, *args: object) -> None:
        """Says nothing."""


@contextmanager
def _serving(site: Path) -> Iterator[_Web]:
    """The web, as long as the context lasts."""
    with _Web(site) as web:
        thread = threading.Thread(target=web.serve_forever, kwargs={"poll_interval": 0.05}, daemon=True)
        thread.start()
        try:
            yield web
        finally:
            web.shutdown()
            thread.join()


@dataclass
class _Demo:
    """The demonstration: where it lies, its web, its authorities and what they issued."""

    folder: Path
    web: _Web
    authorities: list[Authority]
    issued: list[tuple[Authority, Certificate]]
    begin: int

    def moment(self, epoch: int) -> int:
        """The moment of an epoch, from 1 on; the last one's is that of the demonstration's begin."""
        return self.begin - (EPOCHS - epoch) * STEP

    def prepare(self, epoch: int) -> None:
        """What happens before an epoch: certificates, one revocation, CRLs and a tree head."""
        moment = self.moment(epoch)
        wanted = _FIRST + (CERTIFICATES - _FIRST) * (epoch - 1) // (EPOCHS - 1)
        count, since = wanted - len(self.issued), moment - (24 * HOUR if epoch == 1 else STEP)
        for place in range(count):
            seen = since + (moment - 15 * MINUTE - since) * place // count
            self._issue(seen)
        authority, certificate = self.issued[7 * epoch]
        authority.revoked[certificate.serial] = moment - MINUTE
        for place, one in enumerate(self.authorities):
            self.web.crls[f"/crl/{place}.crl"] = one.crl(moment - MINUTE, epoch)
        self.web.log.sign_head(moment - 10 * SECOND)

    def _issue(self, seen: int) -> None:
        """Issues a certificate that the log sees at this time, and keeps it in a file."""
        authority = self.authorities[len(self.issued) % len(self.authorities)]
        certificate = authority.issue(random.getrandbits(126) + 1, seen, self.web.log)
        (self.folder / "certificates" / f"{len(self.issued)}.der").write_bytes(certificate.der)
        self.issued.append((authority, certificate))

    def truth(self, place: int, covered: int) -> Verdict:
        """What the published store must say of a certificate."""
        authority, certificate = self.issued[place]
        if certificate.time > covered:
            return Verdict.NOT_COVERED
        return Verdict.REVOKED if certificate.serial in authority.revoked else Verdict.GOOD


def _config(folder: Path, web: _Web, program: str, authorities: list[Authority]) -> Config:
    """Writes CONFIG, a key, and the authorities' certificates."""
    minisign.new_key(folder / init.SECRET, folder / init.PUBLIC)
    named = str(Path(program).absolute()) if "/" in program else program
    lines = ['name = "demo"', f"program = {json.dumps(named)}", "workers = 1"]
    for place, authority in enumerate(authorities):
        (folder / f"issuer{place}.der").write_bytes(authority.der())
        lines += ["[[issuer]]", f'name = "{authority.name}"', f'certificate = ["issuer{place}.der"]']
        lines += [f'crls = ["{authority.url}"]']
    key = b64encode(web.log.spki).decode("ascii")
    lines += ["[[log]]", 'name = "Demo log"', f'url = "{web.base}log/"', f'key = "{key}"', f'mmd = "{MMD // HOUR}h"']
    path = folder / init.CONFIG
    path.write_text("\n".join([*lines, ""]), encoding="utf-8")
    return load(path)


def _get(web: _Web, name: str) -> bytes:
    """A file of the site, as clients get it."""
    with build_opener(ProxyHandler({})).open(f"{web.base}site/{name}", timeout=30) as answer:
        return bytes(answer.read())


def _verified(demo: _Demo) -> Manifest:
    """The manifest, as a client takes it: with the signature of exactly these bytes."""
    text = _get(demo.web, "manifest.json")
    signature = _get(demo.web, f"manifest-{hashlib.sha256(text).hexdigest()}.minisig")
    (demo.folder / "client" / "manifest.json").write_bytes(text)
    (demo.folder / "client" / "manifest.json.minisig").write_bytes(signature)
    words = [minisign.PROGRAM, "-V", "-q", "-p", str(demo.folder / init.PUBLIC)]
    words += ["-m", str(demo.folder / "client" / "manifest.json")]
    if subprocess.run(words, capture_output=True, check=False).returncode != 0:
        raise DemoError("the manifest's signature isn't verified", "report it")
    return from_json(text)


def _client_store(demo: _Demo, engine: Engine, manifest: Manifest) -> Path:
    """The store that a client makes of the published parts."""
    stores: list[Path] = []
    for place, part in enumerate(manifest.parts):
        octets = _get(demo.web, part.path)
        if len(octets) != part.length or hashlib.sha256(octets).digest() != part.sha256:
            raise DemoError(f"{part.path} isn't what the manifest says", "report it")
        file, store = demo.folder / "client" / f"{place}.part", demo.folder / "client" / f"{place}.store"
        file.write_bytes(octets)
        store.unlink(missing_ok=True)
        if stores:
            engine.install(stores[-1], file, store)
        else:
            engine.start(file, store)
        stores.append(store)
    octets = stores[-1].read_bytes()
    if len(octets) != manifest.store_length or hashlib.sha256(octets).digest() != manifest.store_sha256:
        raise DemoError(f"{stores[-1]} isn't the store that the manifest says", "report it")
    return stores[-1]


def _ask(demo: _Demo, engine: Engine, store: Path, covered: int) -> tuple[dict[Verdict, int], list[str]]:
    """Asks the store about each certificate: how many verdicts there were of each kind, and which were wrong."""
    verdicts = dict.fromkeys(Verdict, 0)
    wrong = []
    for place, (authority, _) in enumerate(demo.issued):
        file = demo.folder / "certificates" / f"{place}.der"
        issuer = demo.folder / f"issuer{demo.authorities.index(authority)}.der"
        said, truth = engine.query_cert(store, file, issuer), demo.truth(place, covered)
        verdicts[said] += 1
        if said is not truth:
            wrong.append(f"{file} is {_word(truth)}, and the store says {_word(said)}")
    return verdicts, wrong


def _word(verdict: Verdict) -> str:
    """A verdict as the program prints it."""
    return verdict.name.lower().replace("_", "-")


def _epoch(demo: _Demo, config: Config, epoch: int, say: Callable[[str], None]) -> list[str]:
    """Makes an epoch and asks its store. The result is which verdicts were wrong."""
    demo.prepare(epoch)
    outcome = run(config, demo.moment(epoch))
    if outcome.status not in _STATUSES:
        raise DemoError(f"epoch {epoch} has status {outcome.status}", outcome.why or "look at standard error")
    manifest, engine = _verified(demo), Engine(config.program)
    store = _client_store(demo, engine, manifest)
    verdicts, wrong = _ask(demo, engine, store, manifest.coverage[0].high)
    part, asked = manifest.parts[-1], len(demo.issued)
    counts = ", ".join(f"{count} {_word(verdict)}" for verdict, count in verdicts.items() if count)
    say(f"epoch {manifest.epoch} of {to_iso(manifest.moment)}: {part.kind} of {part.length} bytes")
    say(f"  a client asks about {asked} certificates: {counts}; {len(wrong) or 'none'} of them wrong")
    for line in wrong:
        say(f"WRONG: {line}")
    return wrong


def _empty(folder: Path) -> None:
    """Makes the folder, or refuses one that isn't empty."""
    try:
        folder.mkdir(parents=True, exist_ok=True)
        if any(folder.iterdir()):
            raise DemoError(f"{folder} isn't empty", "name a new folder")
        for name in ("certificates", "client"):
            (folder / name).mkdir()
    except OSError as fault:
        raise DemoError(f"{folder} can't be written ({fault.strerror})", "name a new folder") from None


def run_demo(folder: Path, program: str, say: Callable[[str], None]) -> int:
    """Two authorities, one log and a site on loopback; 300 certificates; four epochs with a revocation in each.

    Everything is written below `folder`, which is new or empty. `program` is that of CONFIG. `say` gets each line. The
    result is the status: 0 where each verdict of the published store was right, else 1. Raises DemoError.
    """
    _empty(folder)
    begin = int(time.time()) * SECOND
    wrong: list[str] = []
    with _serving(folder / "site") as web:
        authorities = [Authority(f"Demo R{n + 1}", f"{web.base}crl/{n}.crl", begin) for n in range(2)]
        say(f"two authorities, a log and a site at {web.base}site/, all in {folder}")
        try:
            config = _config(folder, web, program, authorities)
            demo = _Demo(folder, web, authorities, [], begin)
            for epoch in range(1, EPOCHS + 1):
                wrong += _epoch(demo, config, epoch, say)
        except (EngineError, minisign.MinisignError, OSError) as fault:
            raise DemoError(str(fault), "then begin again in a new folder") from fault
    if not wrong:
        say(f"each verdict is what the authorities say; look at {folder / 'site' / 'index.html'}")
    return 1 if wrong else 0
