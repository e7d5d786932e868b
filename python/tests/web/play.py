"""A world played: in each epoch the web is shown, the publisher runs, and each certificate is asked of what it
published."""

import contextlib
import io
import re
from collections.abc import Callable
from dataclasses import dataclass, field
from pathlib import Path

from clubcard import minisign
from clubcard.engine import Engine
from clubcard.publish import config as configuration
from clubcard.publish.run import Outcome, run

from .authority import der_of, pem_of
from .issuing import Issued
from .network import PageClient, Servers, Shown
from .oracle import Openssl, Part, Sighting, Truth
from .site import PROGRAM, Published, Reader, ask, ask_certificate
from .world import World, named, told

FEW = 60
CERTIFICATE = re.compile(r" certificate (\d+) ")
NO_NEWS = {"silent", "busy", "garbage", "unsigned", "fork", "branch", "ahead", "shrinks"}


@dataclass(frozen=True)
class Finding:
    """An answer that isn't the truth; where none was owed (`by_chance`), one that isn't what the authority says."""

    epoch: int
    place: int
    text: str


@dataclass
class Count:
    """How many questions were asked, and what was answered."""

    answers: dict[str, int] = field(default_factory=dict)
    free: int = 0

    def add(self, answer: str) -> None:
        self.answers[answer] = self.answers.get(answer, 0) + 1


class Play:
    """The publisher in a world, over pages without a network, or over servers on loopback."""

    def __init__(self, world: World, folder: Path, servers: Servers | None = None) -> None:
        self.world, self.folder, self.servers = world, folder, servers
        folder.mkdir(parents=True, exist_ok=True)
        self.shown = servers.show_all(world) if servers else Shown(world, "http://web.example/")
        self.site = (servers.nginx.www if servers else folder / "www") / "site"
        self.client = None if servers else PageClient(self.shown)
        self._write_keys()
        self.truth = Truth(world, self.shown.things, Openssl(folder / "openssl", self.shown.things))
        self.reader = Reader(folder / "client", self._get, folder / "publisher.pub")
        self.engine = Engine(str(PROGRAM))
        self.count, self.findings = Count(), list[Finding]()
        self.by_chance: list[Finding] = []
        self.published: list[Published] = []
        self.outcomes: list[Outcome] = []
        self.taken: dict[int, int] = {}
        self.newest = -1
        self.misled: list[str] = []
        self.head = 0
        self.places = ""
        """The lines of CONFIG on places."""

    def __enter__(self) -> "Play":
        return self

    def __exit__(self, *_: object) -> None:
        if self.client is not None:
            self.client.close()

    def _get(self, path: str) -> bytes | None:
        """What stands at a path of the site: by HTTP where there is a server."""
        if self.servers is not None:
            return self.servers.nginx.get(f"site/{path}")
        file = self.site / path
        return file.read_bytes() if file.is_file() else None

    def _write_keys(self) -> None:
        minisign.new_key(self.folder / "publisher.key", self.folder / "publisher.pub")
        for authority in self.shown.things.authorities:
            for number, certificate in enumerate(authority.certificates):
                (self.folder / f"{authority.place}-{number}.pem").write_bytes(pem_of(certificate))

    # ---------- CONFIG ----------
    def config(self, epoch: int) -> Path:
        """Writes the CONFIG of an epoch."""
        world = self.world
        lines = ['name = "world"', 'state = "state"', f'site = "{self.site}"', f'program = "{PROGRAM}"']
        lines += [f"workers = {world.workers}", f"rebase_after = {world.rebase_after}", f"patience = {world.patience}"]
        lines += [f'{key} = "{value}"' for key, value in world.more.items()]
        lines += [f'grace = "{world.grace // 1000}s"', f'max_away = "{world.max_away // 1000}s"', ""]
        for place, spec in enumerate(world.issuers):
            partitions = [p for p in range(spec.crls) if (epoch, p) not in spec.drops]
            groups = [[p] for p in partitions] if spec.split else [partitions]
            lines += [self._issuer(place, group) for group in groups if named(spec, epoch)]
        logs = [log for log in self.shown.things.logs if named(log.spec, epoch)]
        lines += [log.toml(self.shown.log_base(log.place), epoch) for log in logs]
        lines.append(self.places)
        path = self.folder / "CONFIG.toml"
        path.write_text("\n".join(lines))
        return path

    def _issuer(self, place: int, partitions: list[int]) -> str:
        authority = self.shown.things.authorities[place]
        certificates = ", ".join(f'"{place}-{number}.pem"' for number in range(len(authority.certificates)))
        lines = ["[[issuer]]", f'name = "Issuer {place}"', f"certificate = [{certificates}]"]
        lines.append("crls = [" + ", ".join(f'"{authority.url(p)}"' for p in partitions) + "]")
        if authority.spec.points == "named":
            pairs = ", ".join(f'"{authority.url(p)}" = "{authority.point(p)}"' for p in partitions)
            lines.append(f"names = {{ {pairs} }}")
        return "\n".join([*lines, ""])

    # ---------- epochs ----------
    def show(self, epoch: int) -> None:
        """Makes the web what it is in an epoch."""
        self.shown.show(epoch)
        if self.servers is not None:
            self.servers.nginx.show(self.shown.pages, self.world.moments[epoch])

    def run(self, epoch: int) -> Outcome:
        """One run of the publisher."""
        loaded = configuration.load(self.config(epoch))
        # The alarms stand in the outcome too.
        with contextlib.redirect_stderr(io.StringIO()):
            return run(loaded, self.world.now(epoch), self.engine, self.client)

    def play(self, then: Callable[["Play", int], None] | None = None) -> "Play":
        """All epochs. `then` is called behind each."""
        for epoch in range(len(self.world.moments)):
            self.show(epoch)
            self.outcomes.append(self.run(epoch))
            self.learn(epoch)
            if then is not None:
                then(self, epoch)
        return self

    def learn(self, epoch: int) -> None:
        """Takes what is published behind an epoch's run, and asks it."""
        if self.world.now(epoch) > self.newest:
            # A run whose clock is behind that of the newest epoch fetches nothing.
            self.truth.fetch(epoch)
            self._take(epoch)
        published = self.reader.read()
        if published is None:
            return
        if not self.published or published.manifest != self.published[-1].manifest:
            self._follow(epoch, published)
            self.published.append(published)
            self.newest = self.world.now(epoch)
        self.compare(epoch, published)

    def _take(self, epoch: int) -> None:
        """Notes how many entries of each log were to be had, and its tree head."""
        for log in self.shown.things.logs:
            if not named(log.spec, epoch) or log.spec.fault(epoch) in NO_NEWS:
                continue
            view = log.view(self.world, epoch)
            self.taken[log.place] = max(self.taken.get(log.place, 0), min(view.served, view.size))
            self.head = max(self.head, view.time)

    def _follow(self, epoch: int, published: Published) -> None:
        """The chain that is published goes on, or begins anew."""
        newest = published.newest_part
        begins = not self.published or published.generation != self.published[-1].generation
        part = Part(newest.ranges, frozenset(published.enrolled)) if begins else newest
        wanted = {self.shown.things.authorities[place].hash for place in self.truth.can_enrol(epoch)}
        if part.issuers != wanted or published.enrolled != wanted:
            self.misled.append(
                f"epoch {epoch}: {len(wanted)} issuers have all CRLs, and {len(part.issuers)} are enrolled"
            )
        self.truth.publish(epoch, part, self.taken)
        if published.generation > 1 and begins:
            cut = min(self.world.now(epoch), self.head) - self.world.grace
            self.truth.rebase(newest, cut)

    # ---------- asking ----------
    def questions(self, epoch: int) -> list[tuple[Issued, tuple[Sighting, ...]]]:
        """What clients ask: each certificate that hasn't expired more than `grace` ago, by its embedded timestamps, by
        each alone, and by all that it has."""
        out = []
        for one in self.shown.things.issued:
            if one.cert.until * 1000 < self.world.moments[epoch] - self.world.grace:
                continue
            every = one.embedded + one.others
            asked = dict.fromkeys([one.embedded, every, *((seen,) for seen in every)])
            out += [(one, seen) for seen in asked if seen]
        return out

    def compare(self, epoch: int, published: Published) -> None:
        """Asks the published store, and notes what isn't the truth."""
        questions = self.questions(epoch)
        answers = ask(published.store, [(one.issuer, one.serial, seen) for one, seen in questions])
        self._ask_certificates(published, [(q, a) for q, a in zip(questions, answers) if q[1] == q[0].embedded][::FEW])
        for (one, seen), answer in zip(questions, answers):
            wanted = self.truth.expected(one, seen)
            self.count.add(answer)
            found = self.findings
            if wanted == "free":
                found, wanted = self.by_chance, "revoked" if one.cert.listed(self.world.moments[epoch]) else "good"
                self.count.free += 1
            if answer != wanted:
                logs = [log.place for log in self.shown.things.logs for id_, _ in seen if id_ == log.id]
                text = f"certificate {one.place} asked by logs {logs} reads {answer}, truth {wanted}"
                found.append(Finding(epoch, one.place, text))

    def _ask_certificates(
        self, published: Published, some: list[tuple[tuple[Issued, tuple[Sighting, ...]], str]]
    ) -> None:
        """Asks by the certificate itself and its issuer's: the library reads the same in them."""
        for (one, _), answer in () if published.store.is_dir() else some:
            issuer = der_of(self.shown.things.authorities[one.cert.issuer].certificates[0])
            assert ask_certificate(published.store, one.der, issuer) == answer, self.told()

    def told(self) -> str:
        """The world and what was found in it, for whoever reads a failed test; of many certificates those alone that
        were answered wrongly."""
        wrong = {finding.place for finding in self.findings}
        few = len(self.world.certs) <= FEW
        world = [line for line in told(self.world) if few or not CERTIFICATE.search(line)]
        world += [line for line in told(self.world) if not few and _place(line) in wrong]
        found = [f"epoch {finding.epoch}: {finding.text}" for finding in self.findings]
        for epoch, outcome in enumerate(self.outcomes):
            world.append(f"epoch {epoch}: status {outcome.status} {outcome.why or ''}")
            world += [f"    {alarm}" for alarm in outcome.alarms]
        return "\n".join([*world, *found, *self.misled])


def _place(line: str) -> int | None:
    """The certificate that a line tells of."""
    found = CERTIFICATE.search(line)
    return int(found[1]) if found else None
