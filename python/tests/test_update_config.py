"""CONFIG of the updater: what is read, and what is said of what can't be."""

import os
from pathlib import Path

import pytest

from clubcard import minisign
from clubcard.times import HOUR
from clubcard.update.config import Config, ConfigError, load

KEY = "RWQf6LRCGA9i53mlYecO4IzT51TGPpvWucNSCh1CBM0QTaLn73Y7GFO3"
"""The key of minisign's own downloads."""
LEAST = f'site = "https://crl.example/site"\nkey = "{KEY}"\nstore = "a store"\n'


def loaded(folder: Path, text: str) -> Config:
    """What is read of a CONFIG."""
    path = folder / "client.toml"
    path.write_text(text, encoding="utf-8")
    return load(path)


def test_least(tmp_path: Path) -> None:
    config = loaded(tmp_path, LEAST)
    assert config == Config(
        path=tmp_path / "client.toml",
        site="https://crl.example/site/",
        key=KEY,
        place=tmp_path / "a store",
        capacity=None,
        state=tmp_path / "state",
        max_age=None,
        program="clubcard",
    )


def test_all(tmp_path: Path) -> None:
    """Each key, with paths that are relative to CONFIG; a link is followed."""
    (tmp_path / "disk").mkdir()
    (tmp_path / "link").symlink_to("disk/device")
    text = f"""
        site = "http://127.0.0.1:8080/"
        key = " {KEY} "
        device = "link"
        capacity = 1099511627776
        state = "/var/lib/state"
        max_age = "36h"
        program = "bin/clubcard"
    """
    config = loaded(tmp_path, text)
    assert (config.place, config.capacity) == (tmp_path / "disk" / "device", 1 << 40)
    assert (config.key, config.max_age, config.state) == (KEY, 36 * HOUR, Path("/var/lib/state"))
    assert config.program == str(tmp_path / "bin" / "clubcard")


WRONG = [
    ("", 'the key "site" is missing'),
    (LEAST.replace("store", "program"), "names a store or a device"),
    (LEAST.replace(KEY, KEY[:-4]), "no public key of minisign.*second line"),
    (LEAST.replace(KEY, "A" * 56), "begin with Ed"),
    (LEAST.replace(KEY, "!"), "no public key of minisign"),
    (LEAST.replace("key", "keys"), 'is it "key"'),
    (LEAST.replace("https://crl.example/site", "ftp://crl.example"), "neither with http"),
    (LEAST.replace("/site", "/?site"), "has a query"),
    (LEAST.replace('"https://crl.example/site"', "7"), "isn't of its type"),
    (LEAST + 'device = "d"\ncapacity = 1\n', "one of both"),
    (LEAST.replace("store", "device"), 'the key "capacity" is missing'),
    (LEAST.replace("store =", "capacity = 0\ndevice ="), "isn't within 1 and 1099511627776"),
    (LEAST.replace("store =", "capacity = 1099511627777\ndevice ="), "isn't within 1 and 1099511627776"),
    (LEAST.replace("store =", "capacity = true\ndevice ="), "isn't of its type"),
    (LEAST + "capacity = 1\n", "only a device"),
    (LEAST + 'max_age = "2"\n', "a duration is a number"),
    (LEAST + 'max_age = "0s"\n', "a duration is a number"),
    (LEAST.replace("a store", "state/store"), "updater's own"),
    (LEAST.replace("a store", "."), "is no file"),
    (LEAST.replace("a store", "a\\tstore"), "control characters"),
    (LEAST.replace("a store", ""), "is empty"),
    (LEAST + "[[issuer]]\n", 'no key "issuer"'),
    (LEAST + "x", "it is no TOML"),
]


@pytest.mark.parametrize("text, says", WRONG)
def test_wrong(tmp_path: Path, text: str, says: str) -> None:
    """What is wrong is told with its place and a remedy."""
    with pytest.raises(ConfigError, match=f"client.toml: .*({says})"):
        loaded(tmp_path, text)


def test_unread(tmp_path: Path) -> None:
    with pytest.raises(ConfigError, match="can't be read.*look at its name"):
        load(tmp_path / "none")
    (tmp_path / "bytes").write_bytes(b"\xff")
    with pytest.raises(ConfigError, match="no UTF-8"):
        load(tmp_path / "bytes")


def test_a_device_node(tmp_path: Path) -> None:
    """Nothing that isn't a file is ever replaced."""
    os.mkfifo(tmp_path / "a store")
    with pytest.raises(ConfigError, match="is no file"):
        loaded(tmp_path, LEAST)


def test_the_key_of_a_new_pair(tmp_path: Path) -> None:
    """The second line of the public key's file is what CONFIG takes."""
    minisign.new_key(tmp_path / "secret", tmp_path / "public")
    line = (tmp_path / "public").read_text().splitlines()[1]
    assert loaded(tmp_path, LEAST.replace(KEY, line)).key == line == minisign.public_line(tmp_path / "public")
