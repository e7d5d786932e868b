"""Manifests that aren't taken: replayed, by another key, cut, without a signature, past their time; the next key."""

import json
import re
import shutil
from collections.abc import Callable
from dataclasses import replace
from pathlib import Path
from typing import Any

import pytest

from clubcard import minisign
from clubcard.publish.site import signature_name
from followed import EPOCHS, REBASED, Follower, History, Web
from web.answers import Answer

Pages = dict[str, bytes]


@pytest.fixture(name="client")
def made_client(history: History, web: Web, tmp_path: Path) -> Follower:
    """A client that has epoch 3."""
    client = Follower(tmp_path / "client", history, web.base)
    web.show(history.shown(3))
    client.update(3)
    return client


def refused(client: Follower, web: Web, pages: Pages, number: int = 4, status: int = 4) -> str:
    """A run over these pages leaves the store, and what it says. Over the truth it goes on behind it."""
    history = client.history
    web.show(pages)
    outcome = client.run(history.now(number))
    assert outcome.status == status, outcome.line
    assert client.store() == history.epoch(3).store
    web.show(history.shown(4))
    client.update(4)
    return outcome.line


def test_replayed(client: Follower, web: Web) -> None:
    """An older one isn't taken, also where its chain has more parts."""
    history = client.history
    assert "accepted before" in refused(client, web, history.shown(2), 3)
    for newer, older in ((REBASED, REBASED - 1), (EPOCHS, REBASED)):
        web.show(history.shown(newer))
        client.update(newer)
        web.show(history.shown(older))
        outcome = client.run(history.now(newer))
        assert outcome.status == 4 and "replayed" in outcome.line
        client.test_has(newer)


def test_another_of_the_same_epoch(client: Follower, web: Web) -> None:
    """Also a signed one, and one of a chain begun anew in the same epoch is newer."""
    assert "another manifest" in refused(client, web, client.history.changed(3, coverage=[]), 3)


def test_another_chain(client: Follower, web: Web) -> None:
    """A chain of another name, such as one for tries, isn't taken by the same key, and doesn't raise the order; until
    the client is moved as the line says."""
    history = client.history
    pages = history.changed(REBASED, name="of tries")
    line = refused(client, web, pages)
    assert "is of the chain 'of tries', and this client follows 'a chain'" in line
    accepted = client.folder / "state" / "accepted.json"
    assert f"remove {accepted} and run again" in line
    web.show(pages)
    assert client.run(history.now(REBASED)).status == 4
    accepted.unlink()
    assert client.run(history.now(REBASED)).status == 0


def test_a_lower_generation(client: Follower, web: Web) -> None:
    """Generations count before epochs."""
    assert "accepted before" in refused(client, web, client.history.changed(4, generation=0))


def test_another_key(client: Follower, web: Web) -> None:
    history = client.history
    pages = history.pages(history.epoch(4).text, history.sign(history.epoch(4).text, "other.key"))
    assert "isn't one by the pinned key" in refused(client, web, pages)


def test_a_signature_of_other_bytes(client: Follower, web: Web) -> None:
    """That of another manifest, and one under the name without a digest alone."""
    history = client.history
    pages = history.pages(history.epoch(4).text, history.epoch(3).signature)
    assert "isn't one by the pinned key" in refused(client, web, pages)


@pytest.mark.parametrize("signature", [b"", b"untrusted comment: x\n", b"\xff" * 1000, b"x\ny\nz\nw\n"])
def test_no_signature(client: Follower, web: Web, signature: bytes) -> None:
    """Bytes that are none, and the untouched signature with another comment."""
    text = client.history.epoch(4).text
    assert "isn't one by the pinned key" in refused(client, web, client.history.pages(text, signature))


def test_another_trusted_comment(client: Follower, web: Web) -> None:
    """The trusted comment is signed too."""
    epoch = client.history.epoch(4)
    signature = epoch.signature.replace(b"epoch 4", b"epoch 9")
    assert signature != epoch.signature
    assert "isn't one by the pinned key" in refused(client, web, client.history.pages(epoch.text, signature))


def test_a_missing_signature(client: Follower, web: Web) -> None:
    """The signature that fits a manifest's bytes has their digest in its name; manifest.json.minisig isn't asked."""
    pages = client.history.shown(4)
    signature = pages.pop(signature_name(pages["manifest.json"]))
    pages["manifest.json.minisig"] = signature
    assert "signature is missing" in refused(client, web, pages)


def test_a_cut_manifest(client: Follower, web: Web) -> None:
    """Cut or changed anywhere it has no signature; where somebody signed it, it is told what it lacks."""
    history = client.history
    text = history.epoch(4).text
    web.show(history.shown(4))
    for cut in (text[:-1], text[: len(text) // 2], b"", text.replace(b"a chain", b"b chain"), text + b" "):
        pages = history.shown(4) | {"manifest.json": cut}
        web.show(pages)
        assert client.run(history.now(4)).status == 4
        assert client.store() == history.epoch(3).store
    assert "isn't JSON" in refused(client, web, history.pages(text[:-5]))


MEMBERS: list[tuple[dict[str, Any], str]] = [
    ({"format": 3}, "format is 3.*update this program"),
    ({"parts": []}, "1 to 64 parts"),
    ({"epoch": 5}, "epochs that don't rise"),
    ({"next_key": "none"}, "next_key: "),
    ({"store": {"length": 7, "sha256": "00" * 32}}, "length of its parts"),
]


@pytest.mark.parametrize("members, says", MEMBERS)
def test_members(client: Follower, web: Web, members: dict[str, Any], says: str) -> None:
    """What a signed manifest says must be possible."""
    web.show(client.history.changed(4, **members))
    outcome = client.run(client.history.now(4))
    assert outcome.status == 4 and re.search(says, outcome.line), outcome.line
    assert client.store() == client.history.epoch(3).store


def test_the_digest_of_the_store(client: Follower, web: Web) -> None:
    """Where the parts together aren't the store that was signed, nothing is installed."""
    store = json.loads(client.history.epoch(4).text)["store"] | {"sha256": "00" * 32}
    web.show(client.history.changed(4, store=store))
    outcome = client.run(client.history.now(4))
    assert outcome.status == 4 and "SHA-256 of its parts together" in outcome.line
    assert client.store() == client.history.epoch(3).store
    web.show(client.history.shown(5))
    client.update(5)


def test_past_its_time(client: Follower, web: Web) -> None:
    """A newer one that is past its time isn't taken, nor noted."""
    history = client.history
    line = refused(client, web, history.shown(4), EPOCHS, 3)
    assert "was valid until" in line


def lies(status: int) -> Callable[[object], Answer]:
    """An answer of a status."""
    return lambda request: Answer(status, b"")


@pytest.mark.parametrize("status", [404, 403, 500, 429, 302])
def test_no_manifest(client: Follower, web: Web, status: int) -> None:
    """The store stays and is in time; past its time it is stale."""
    history = client.history
    web.show({})
    web.lies["manifest.json"] = lies(status)
    outcome = client.run(history.now(4))
    assert outcome.status == 5 and "manifest.json" in outcome.line, outcome.line
    outcome = client.run(history.epoch(3).manifest.valid_until + 1)
    assert outcome.status == 3 and "was valid until" in outcome.line
    client.test_has(3)


def test_a_signature_that_does_not_come(client: Follower, web: Web) -> None:
    history = client.history
    web.show(history.shown(4))
    web.lies[signature_name(history.epoch(4).text)] = lies(500)
    assert client.run(history.now(4)).status == 5
    client.test_has(3)


def moved(client: Follower, old: str, new: str) -> None:
    """Does what is told where a site or a store was moved on purpose."""
    accepted = client.folder / "state" / "accepted.json"
    text = accepted.read_text()
    assert text.count(f'"{old}"') == 1
    accepted.write_text(text.replace(f'"{old}"', f'"{new}"'))


def test_a_state_of_another_site(client: Follower, web: Web) -> None:
    """It is told before the site is asked; behind the move that is told the order still holds."""
    history, base = client.history, client.base
    client.base = f"{base}moved/"
    web.show({f"moved/{path}": body for path, body in history.shown(4).items()})
    outcome = client.run(history.now(4))
    assert outcome.status == 2 and f"belongs to the site {base}," in outcome.line and not web.asked
    assert outcome.line.endswith(f'accepted.json: "site": "{client.base}"')
    client.test_has(3)
    moved(client, base, client.base)
    client.update(4)
    web.show({f"moved/{path}": body for path, body in history.shown(3).items()})
    assert client.run(history.now(3)).status == 4


def test_a_state_of_another_store(client: Follower, web: Web) -> None:
    """Two CONFIGs in one folder each need a state of their own, and so does a device in a store's place."""
    history, other = client.history, replace(client, words={"store": "other"})
    web.show(history.shown(4))
    for one in (other, replace(client, is_device=True)):
        outcome = one.run(history.now(4))
        assert outcome.status == 2 and "belongs to the store ../store " in outcome.line and not web.asked
        assert not (client.folder / "other").exists() and not (client.folder / "device").exists()
    other.words["state"] = "state of the other"
    assert other.run(history.now(4)).status == 0
    shutil.rmtree(client.folder / "state of the other")
    for name in ("other", ".other.lock", ".device.lock"):
        (client.folder / name).unlink()
    client.update(4)
    client.folder = client.folder.rename(client.folder.with_name("moved"))
    web.show(history.shown(5))
    client.update(5)


def test_a_state_of_an_earlier_version(client: Follower, web: Web) -> None:
    """It names neither, and does so from the next run on."""
    accepted = client.folder / "state" / "accepted.json"
    held = json.loads(accepted.read_text())
    accepted.write_text(json.dumps({name: value for name, value in held.items() if name not in ("site", "place")}))
    client.update(3)
    assert json.loads(accepted.read_text()) == held and held["place"] == "../store"


def test_no_network(client: Follower, history: History, tmp_path: Path) -> None:
    """Also where there is no store yet."""
    moved(client, client.base, "http://127.0.0.1:1/")
    client.base = "http://127.0.0.1:1/"
    assert client.run(history.now(3)).status == 5
    fresh = Follower(tmp_path / "fresh", history, "http://127.0.0.1:1/")
    assert fresh.run(history.now(3)).status == 5 and fresh.store() is None


def test_a_site_that_is_always_current(client: Follower, web: Web) -> None:
    """A site that says 304 to everything leaves a client with its store until that is past its time, and gives nothing
    to a new one."""
    history = client.history
    web.show({})
    web.lies["manifest.json"] = lies(304)
    assert client.run(history.now(4)).status == 0
    assert client.run(history.epoch(3).manifest.valid_until + 1).status == 3
    client.test_has(3)
    fresh = Follower(client.folder.parent / "fresh", history, web.base)
    assert fresh.run(history.now(4)).status == 5


# ---- the next key


def test_the_announced_key(client: Follower, web: Web) -> None:
    """It is taken once a signed manifest announced it, and the one that this announces in its turn."""
    history = client.history
    other = minisign.public_line(history.folder / "other.pub")
    web.show(history.changed(4, "other.key"))
    assert client.run(history.now(4)).status == 4
    web.show(history.changed(4, next_key=other))
    outcome = client.run(history.now(4))
    assert (outcome.status, outcome.hint) == (0, None)
    for number in (5, 6):
        web.show(history.changed(number, "other.key"))
        outcome = client.run(history.now(number))
        assert outcome.status == 0 and outcome.hint is not None and other in outcome.hint
    web.show(history.shown(7))
    assert client.run(history.now(7)).status == 0
    web.show(history.changed(8, "other.key"))
    assert client.run(history.now(8)).status == 4


@pytest.mark.parametrize("blanks", [" {}", "{}\n", "\t{} "])
def test_an_announced_key_with_blanks(client: Follower, web: Web, blanks: str) -> None:
    """It is taken as the key without them, as the one of CONFIG is."""
    history = client.history
    other = minisign.public_line(history.folder / "other.pub")
    web.show(history.changed(4, next_key=blanks.format(other)))
    assert client.run(history.now(4)).status == 0
    web.show(history.changed(5, "other.key"))
    outcome = client.run(history.now(5))
    assert outcome.status == 0 and outcome.hint is not None and f'"{other}"' in outcome.hint


def test_the_new_key_by_hand(client: Follower, web: Web) -> None:
    """With it in CONFIG a former one isn't taken any more, whatever was announced."""
    history = client.history
    other = minisign.public_line(history.folder / "other.pub")
    web.show(history.changed(4, next_key=other))
    assert client.run(history.now(4)).status == 0
    client.words = {"key": other}
    assert client.run(history.now(4)).status == 4
    web.show(history.shown(5))
    assert client.run(history.now(5)).status == 4
    web.show(history.changed(5, "other.key", next_key=None))
    assert client.run(history.now(5)).status == 0


def test_behind_a_theft(client: Follower, web: Web) -> None:
    """What was signed by a key that was stolen doesn't bind a client that pins another one: the order begins anew."""
    history = client.history
    web.show(history.changed(4, generation=1 << 63))
    assert client.run(history.now(4)).status == 0
    web.show(history.shown(5))
    assert client.run(history.now(5)).status == 4
    client.words = {"key": minisign.public_line(history.folder / "other.pub")}
    assert client.run(history.now(5)).status == 4
    web.show(history.changed(5, "other.key"))
    assert client.run(history.now(5)).status == 0
    assert client.store() == history.epoch(5).store
    web.show(history.changed(4, "other.key"))
    assert client.run(history.now(5)).status == 4


def test_the_order_under_the_announced_key(client: Follower, web: Web) -> None:
    """Where the key that is pinned now signed what was accepted before, the order goes on."""
    history = client.history
    other = minisign.public_line(history.folder / "other.pub")
    for pages in (history.changed(4, next_key=other), history.changed(5, "other.key")):
        web.show(pages)
        assert client.run(history.now(5)).status == 0
    client.words = {"key": other}
    web.show(history.changed(4, "other.key"))
    outcome = client.run(history.now(5))
    assert outcome.status == 4 and "accepted before" in outcome.line


def test_without_minisign(client: Follower, web: Web, monkeypatch: pytest.MonkeyPatch) -> None:
    monkeypatch.setattr(minisign, "PROGRAM", "none-of-this-name")
    assert "package minisign" in refused_then(client, web, 2)
    monkeypatch.undo()
    client.update(4)


def refused_then(client: Follower, web: Web, status: int) -> str:
    """A run over epoch 4 has a status and leaves the store."""
    web.show(client.history.shown(4))
    outcome = client.run(client.history.now(4))
    assert outcome.status == status, outcome.line
    assert client.store() == client.history.epoch(3).store
    return outcome.line


def test_without_the_program(client: Follower, web: Web) -> None:
    client.words = {"program": "/none/of/this/name"}
    assert "name the program by its path" in refused_then(client, web, 2)
    client.words = {}
    client.update(4)


@pytest.mark.parametrize("program", ["/bin/true", "/bin/false", "/bin/echo"])
def test_another_program(client: Follower, web: Web, program: str) -> None:
    """It is the set-up's fault, for which the unit fails."""
    client.words = {"program": program}
    assert "see that this is the program of this version" in refused_then(client, web, 2)
    client.words = {}
    client.update(4)


def test_a_damaged_state(client: Follower, web: Web) -> None:
    """It is told, and nothing older is taken by it."""
    accepted = client.folder / "state" / "accepted.json"
    whole = accepted.read_bytes()
    later = whole.replace(b'"format": 1', b'"format": 2')
    none = b'{"format": 1, "manifest": "", "key": "", "pinned": "", "etag": null}'
    for damaged in (b"", b"[]", b"{}", whole[:-9], b"\xff", later, none):
        accepted.write_bytes(damaged)
        assert "it is damaged" in refused_then(client, web, 5)
    accepted.write_bytes(whole)
    client.update(4)
