"""Signatures by the program `minisign`: made with a secret key that has no password, and verified.

A signature is over the file's BLAKE2b-512 (minisign's prehashed form, which is its default). Its comments hold no time,
and Ed25519 draws nothing at random: so the same file and key give the same signature, byte for byte.
"""

import base64
import binascii
import subprocess
from pathlib import Path

PROGRAM = "minisign"


class MinisignError(Exception):
    """A key or a signature couldn't be made or read. `remedy` says what to do."""

    def __init__(self, what: str, remedy: str) -> None:
        super().__init__(f"{what}: {remedy}")
        self.what = what
        self.remedy = remedy


def _missing() -> MinisignError:
    return MinisignError("minisign isn't there", "install Debian's package minisign")


def _call(words: list[str]) -> None:
    """Runs the program with no input, so that it can ask nobody."""
    try:
        done = subprocess.run([PROGRAM, *words], stdin=subprocess.DEVNULL, capture_output=True, check=False)
    except FileNotFoundError:
        raise _missing() from None
    if done.returncode != 0:
        said = (done.stderr or done.stdout).decode("utf-8", "replace").strip().replace("\n", " ")
        raise MinisignError(f"minisign has status {done.returncode} ({said})", "look at the key and at the disk")


def _second_line(path: Path) -> bytes:
    """What the Base64 of a key file's second line spells."""
    try:
        lines = path.read_text(encoding="utf-8").splitlines()
        return base64.b64decode(lines[1].strip(), validate=True)
    except OSError as fault:
        raise MinisignError(f"{path} can't be read ({fault.strerror})", "look at its name and rights") from None
    except (UnicodeDecodeError, IndexError, binascii.Error):
        raise MinisignError(f"{path} is no key file of minisign", "name the file that `minisign -G` wrote") from None


def key_line(text: str) -> str:
    """The Base64 of a public key, from the second line of its file. Raises ValueError where it is none."""
    octets = base64.b64decode(text.strip(), validate=True)
    if len(octets) != 42 or octets[:2] != b"Ed":
        raise ValueError("it isn't the Base64 of 42 bytes that begin with Ed")
    return base64.b64encode(octets).decode("ascii")


def public_line(path: Path) -> str:
    """The second line of a public key file, the Base64 of the key. Raises MinisignError."""
    octets = _second_line(path)
    if len(octets) != 42 or octets[:2] != b"Ed":
        raise MinisignError(f"{path} is no public key of minisign", "name the file that `minisign -G -p` wrote")
    return base64.b64encode(octets).decode("ascii")


def check_key(path: Path) -> None:
    """Whether a file is a secret key without a password. Raises MinisignError where it isn't."""
    octets = _second_line(path)
    if len(octets) != 158 or octets[:2] != b"Ed":
        raise MinisignError(f"{path} is no secret key of minisign", "name the file that `minisign -G -W -s` wrote")
    if octets[2:4] != b"\0\0":
        raise MinisignError(f"{path} has a password", f"remove it by `minisign -C -W -s {path}`")


def new_key(secret: Path, public: Path) -> None:
    """Writes a new key pair without a password under names that no file has. Raises MinisignError."""
    for path in (secret, public):
        if path.exists():
            raise MinisignError(f"{path} is there already", "a key is never replaced: move it away")
    _call(["-G", "-W", "-p", str(public), "-s", str(secret)])


def sign(file: Path, signature: Path, key: Path, trusted: str) -> None:
    """Writes the signature of a file. The trusted comment, which is signed too, is one line. Raises MinisignError."""
    check_key(key)
    comment = "signature of a clubcard manifest"
    _call(["-S", "-s", str(key), "-c", comment, "-t", trusted, "-x", str(signature), "-m", str(file)])


def verifies(key: str, file: Path, signature: Path) -> bool:
    """Whether a signature is one of a file's bytes by a public key (its line). Raises MinisignError."""
    try:
        words = [PROGRAM, "-V", "-q", "-P", key, "-x", str(signature), "-m", str(file)]
        done = subprocess.run(words, stdin=subprocess.DEVNULL, capture_output=True, check=False)
    except FileNotFoundError:
        raise _missing() from None
    if done.returncode < 0:
        raise MinisignError(f"minisign was ended by signal {-done.returncode}", "run it again")
    return done.returncode == 0
