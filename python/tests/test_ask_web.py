"""`clubcardctl ask` over random certificates of the publisher's small web, in each epoch: the same as the program."""

from collections import Counter
from pathlib import Path

import pytest
from cryptography import x509
from cryptography.hazmat.primitives.serialization import Encoding

from asked import answers
from clubcard.ctl.verdicts import word_of
from web.authority import pem_of
from web.issuing import Issued
from web.play import Play
from web.world import HOUR
from web.worlds import four_epochs

COUNT = 500
FEW = 60


class Client:
    """Whoever asks the published store in each epoch. Certificates are given in turn in DER, in PEM, and as chains."""

    def __init__(self, folder: Path) -> None:
        self.folder = folder
        self.counts: Counter[str] = Counter()
        self.words: list[str | Path] = []
        self.away: list[tuple[int, str]] = []

    def prepare(self, play: Play) -> None:
        """Writes the certificates."""
        for authority in play.shown.things.authorities:
            self.words += ["-i", play.folder / f"{authority.place}-0.pem"]
        for one in play.shown.things.issued:
            self._write(play, one)

    def _write(self, play: Play, one: Issued) -> None:
        certificate = x509.load_der_x509_certificate(one.der)
        octets = certificate.public_bytes(Encoding.PEM) if one.place % 3 else one.der
        if one.place % 3 == 2:
            octets += pem_of(play.shown.things.authorities[one.cert.issuer].certificates[0])
        self.file(one).write_bytes(octets)

    def file(self, one: Issued) -> Path:
        """The file of a certificate."""
        return self.folder / f"{one.place}.crt"

    def ask(self, play: Play, epoch: int) -> None:
        """Asks about each certificate, once at all."""
        if not self.words:
            self.prepare(play)
        issued, store = play.shown.things.issued, play.published[-1].store
        found = answers(*self.words, store, *map(self.file, issued))
        for one, answer in zip(issued, found, strict=True):
            verdict = play.engine.query(store, one.issuer, one.serial, one.embedded)
            assert (answer["name"], answer["verdict"]) == (str(self.file(one)), word_of(verdict)), play.told()
            assert (answer["issuer"], answer["serial"]) == (one.issuer.hex(), one.serial.hex())
            assert [(seen["log"], seen["time"]) for seen in answer["timestamps"]] == [
                (log.hex(), time) for log, time in one.embedded
            ]
            self.counts[answer["verdict"]] += 1
        if epoch == 1:
            self.ask_of_away(play, store, [answer["verdict"] for answer in found[:FEW]])

    def ask_of_away(self, play: Play, store: Path, said: list[str]) -> None:
        """Asks some with the manifest. Issuer 1 isn't enrolled since the epoch before, six hours ago."""
        issued, manifest = play.shown.things.issued[:FEW], play.reader.folder / "manifest.json"
        for hours, is_away in ((6, False), (5, True)):
            assert play.world.moments[1] - play.world.moments[0] == 6 * HOUR
            more: list[str | Path] = ["--manifest", manifest, "--max-away", f"{hours}h"]
            found = answers(*more, *self.words, store, *map(self.file, issued))
            for one, answer, word in zip(issued, found, said, strict=True):
                counts = one.cert.issuer != 1 or not is_away or word == "not-covered"
                assert answer["verdict"] == (word if counts else "not-enrolled")


@pytest.mark.usefixtures("plain_charts")
def test_two_thousand_answers(tmp_path: Path) -> None:
    client = Client(tmp_path)
    with Play(four_epochs(COUNT), tmp_path / "web") as play:
        play.play(client.ask)
        assert not play.findings, play.told()
    assert client.counts.total() == 2000 and min(client.counts.values()) > 50 and len(client.counts) == 4
