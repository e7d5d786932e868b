"""`clubcard-publish init`: a folder to begin with, an example CONFIG and a key."""

from importlib import resources
from pathlib import Path

from .. import minisign
from ..placing import sync

CONFIG = "publisher.toml"
SECRET = "publisher.key"
PUBLIC = "publisher.pub"


class InitError(Exception):
    """The folder couldn't be begun. `remedy` says what to do; no file that was there has changed."""

    def __init__(self, what: str, remedy: str) -> None:
        super().__init__(f"{what}: {remedy}")
        self.what = what
        self.remedy = remedy


def example() -> str:
    """The example CONFIG, in which each key is explained. Its issuer and log stand behind a `#`."""
    return resources.files(__package__).joinpath("templates", CONFIG).read_text(encoding="utf-8")


def write_example(folder: Path) -> tuple[Path, ...]:
    """Writes an example CONFIG, in which each key is explained, and a minisign key without a password.

    The folder is made where it isn't there. The result is the files that were written: CONFIG, the secret key, which
    only its owner may read, and the public one. Raises InitError where one of them is there already or can't be
    written, and MinisignError where the key can't be made.
    """
    files = tuple(folder / name for name in (CONFIG, SECRET, PUBLIC))
    for path in files:
        if path.exists() or path.is_symlink():
            raise InitError(f"{path} is there already", "name another folder; no file is replaced")
    try:
        folder.mkdir(parents=True, exist_ok=True)
        minisign.new_key(folder / SECRET, folder / PUBLIC)
        with open(folder / CONFIG, "x", encoding="utf-8") as file:
            file.write(example())
        for path in (*files, folder):
            sync(path)
    except OSError as fault:
        raise InitError(f"{folder} can't be written ({fault.strerror})", "look at its name and rights") from None
    return files
