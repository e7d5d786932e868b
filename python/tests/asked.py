"""A small store to ask, which the program makes of certificates that `cryptography` makes; and calls of clubcardctl."""

import json
import os
import subprocess
import sys
from dataclasses import dataclass, field
from pathlib import Path
from typing import Any

from click.testing import CliRunner, Result
from cryptography import x509

import made
from clubcard import pki
from clubcard.ctl.cli import main
from clubcard.engine import Engine
from web.octets import der

TIMESTAMPS = x509.ObjectIdentifier("1.3.6.1.4.1.11129.2.4.2")
WORDS = {0: "good", 1: "revoked", 3: "not-covered", 4: "not-enrolled"}
LATE = made.MOMENT + 9000
SERIALS = {"good": 0xD00A, "revoked": 0x81, "late": 0x123456789ABCDEF0, "number": 1000}


def ctl(*words: str | Path, lines: str | bytes = "") -> Result:
    """A call of clubcardctl."""
    return CliRunner(mix_stderr=False).invoke(main, [str(word) for word in words], input=lines, prog_name="clubcardctl")


def answers(*words: str | Path) -> list[dict[str, Any]]:
    """What `ask --json` prints."""
    found: list[dict[str, Any]] = json.loads(ctl("ask", "--json", *words).stdout)
    return found


def ends(text: str, status: int, *words: str | Path) -> Result:
    """A call that ends with this status, with this text on one of its outputs."""
    result = ctl(*words)
    assert result.exit_code == status, (result.exit_code, result.stdout, result.stderr, result.exception)
    assert text in result.stdout + result.stderr, (result.stdout, result.stderr)
    return result


def called(*words: str | Path, **more: Any) -> "subprocess.CompletedProcess[bytes]":
    """A call of clubcardctl in a process of its own."""
    variables = {**os.environ, "PYTHONPATH": str(made.TOP / "python"), **more.pop("variables", {})}
    more = {"stdout": subprocess.PIPE, "stderr": subprocess.PIPE, **more}
    return subprocess.run([sys.executable, "-m", "clubcard.ctl", *map(str, words)], env=variables, check=False, **more)


def program(*words: str | Path | int) -> str:
    """The line that the program prints."""
    done = subprocess.run([made.PROGRAM, *map(str, words)], capture_output=True, text=True, check=True)
    return done.stdout.strip()


def timestamp(log: bytes, time: int) -> bytes:
    """A timestamp with its length (RFC 6962, 3.2 and 3.3), and a signature of nothing."""
    signature = b"\x04\x03" + made.vector(der(0x30, b"\x02\x01\x01" * 2), 2)
    return made.vector(b"\0" + log + time.to_bytes(8, "big") + bytes(2) + signature, 2)


def stamped(*timestamps: bytes) -> tuple[x509.ExtensionType, bool]:
    """The extension of some timestamps."""
    return x509.UnrecognizedExtension(TIMESTAMPS, der(4, made.vector(b"".join(timestamps), 2))), False


@dataclass
class Small:
    """Two authorities, of which the store has enrolled elm alone. Of each there are four certificates, whose serials
    stand in SERIALS: that of `revoked` is listed, and `late` has a timestamp that isn't covered. NAME.pem holds a
    certificate, NAME.der too, and NAME.chain has its issuer's behind it."""

    folder: Path
    elm: made.Authority = field(default_factory=lambda: made.Authority.of("elm"))
    oak: made.Authority = field(default_factory=lambda: made.Authority.of("oak"))

    def __post_init__(self) -> None:
        self.folder.mkdir(exist_ok=True)
        shown: list[str | Path] = []
        for name, authority in (("elm", self.elm), ("oak", self.oak)):
            self._write(name, authority, authority.certificate)
            for word, serial in SERIALS.items():
                seen = LATE if word == "late" else made.MOMENT
                certificate = authority.issue(serial, [stamped(timestamp(made.LOG, seen))])
                self._write(f"{name}-{word}", authority, certificate)
                shown += ["--certificate", self[f"{name}-{word}.pem"], self[f"{name}.pem"], made.LOG.hex(), str(seen)]
        self["elm.crl"].write_bytes(made.der_of(self.elm.crl([SERIALS["revoked"]])))
        self["plain.chain"].write_bytes(made.pem_of(self.elm.issue(7)) + made.pem_of(self.elm.certificate))
        moment = str(made.MOMENT)
        words = ["--epoch", "1", "--moment", moment, "--range", made.LOG.hex(), moment, str(made.MOMENT + 1000), *shown]
        ends("job", 0, "job", *words, "--crl", self["elm.pem"], self["elm.crl"], self["job"])
        engine = Engine(made.PROGRAM)
        assert engine.snapshot(self["job"], self["part"], self["ledger"], 1).accepted == 3
        engine.start(self["part"], self.store)

    def __getitem__(self, name: str) -> Path:
        return self.folder / name

    @property
    def store(self) -> Path:
        """The store."""
        return self["store"]

    def by_serial(self, name: str, **words: str) -> list[str]:
        """The words that ask about one of elm's certificates, of which some are given."""
        given = {"issuer": self.key("elm"), "serial": hex(SERIALS[name]), "log": made.LOG.hex(), **words}
        given.setdefault("time", str(LATE if name == "late" else made.MOMENT))
        return [part for word, value in given.items() for part in (f"--{word}", value)]

    def key(self, name: str) -> str:
        """The key hash of an authority in hexadecimal digits."""
        return pki.issuer_hash(self[f"{name}.der"].read_bytes()).hex()

    def _write(self, name: str, authority: made.Authority, certificate: x509.Certificate) -> None:
        self[f"{name}.pem"].write_bytes(made.pem_of(certificate))
        self[f"{name}.der"].write_bytes(made.der_of(certificate))
        self[f"{name}.chain"].write_bytes(made.pem_of(certificate) + made.pem_of(authority.certificate))
