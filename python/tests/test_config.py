"""CONFIG: each key with its default, and each fault with its place and a remedy."""

import base64
import hashlib
from pathlib import Path
from typing import Any

import pytest
from cryptography.hazmat.primitives import serialization
from cryptography.hazmat.primitives.asymmetric import ec, ed25519, rsa
from hypothesis import HealthCheck, given, settings
from hypothesis import strategies as st

from clubcard import minisign
from clubcard.publish.config import Config, ConfigError, hints, load
from clubcard.tables import url_fault
from clubcard.times import DAY, HOUR, MINUTE, duration

from made import Authority, pem_of

NAME = 'name = "example"'
ISSUER = """[[issuer]]
name = "Example CA"
certificate = ["r1.pem"]
crls = ["http://crl.example/r1.crl"]
"""
CURVE = ec.generate_private_key(ec.SECP256R1())


def key_text(key: Any) -> str:
    """The Base64 of a public key, as a log list has it."""
    form = serialization.PublicFormat.SubjectPublicKeyInfo
    return base64.b64encode(key.public_key().public_bytes(serialization.Encoding.DER, form)).decode()


LOG = f"""[[log]]
name = "Example log"
url = "https://log.example/2026"
key = "{key_text(CURVE)}"
"""


@pytest.fixture(scope="module")
def folder(tmp_path_factory: pytest.TempPathFactory) -> Path:
    """A folder with a key, a certificate in PEM, the same in DER and cross-signed, and one of another key."""
    made = tmp_path_factory.mktemp("config")
    minisign.new_key(made / "publisher.key", made / "publisher.pub")
    minisign.new_key(made / "next.key", made / "next.pub")
    one, other = Authority.of("Example CA"), Authority.of("Other CA")
    crossed = Authority.of("Example CA", one.key)
    (made / "r1.pem").write_bytes(pem_of(one.certificate))
    (made / "r1.der").write_bytes(one.der)
    (made / "r1-crossed.pem").write_bytes(pem_of(crossed.certificate) + pem_of(one.certificate))
    (made / "r2.pem").write_bytes(pem_of(other.certificate))
    (made / "both.pem").write_bytes(pem_of(one.certificate) + pem_of(other.certificate))
    (made / "text.pem").write_text("no certificate")
    return made


def loaded(folder: Path, text: str) -> Config:
    """What a CONFIG of this text says."""
    path = folder / "CONFIG.toml"
    path.write_text(text, encoding="utf-8")
    return load(path)


def fault_of(folder: Path, text: str) -> str:
    """Why a CONFIG of this text is refused: one line that begins with its place."""
    with pytest.raises(ConfigError) as caught:
        loaded(folder, text)
    told = str(caught.value)
    assert told.startswith(str(folder / "CONFIG.toml"))
    assert told.isprintable()
    return told.removeprefix(str(folder / "CONFIG.toml"))


def test_defaults(folder: Path) -> None:
    config = loaded(folder, NAME)
    assert config == Config(
        path=folder / "CONFIG.toml",
        name="example",
        state=folder / "state",
        site=folder / "site",
        key=folder / "publisher.key",
        next_key=None,
        program="clubcard",
        workers=4,
        valid_for=24 * HOUR,
        rebase_after=40,
        patience=8,
        max_away=10 * DAY,
        grace=7 * DAY,
        keep=30 * DAY,
        issuers=(),
        logs=(),
    )


def test_all_keys(folder: Path) -> None:
    config = loaded(
        folder,
        f"""name = "chain"
state = "/tmp/elsewhere"
site = "www/site"
key = "next.key"
next_key = "next.pub"
program = "bin/clubcard"
workers = 64
valid_for = "90s"
rebase_after = 1
patience = 0
max_away = "0d"
grace = "10m"
keep = "2h"

[[issuer]]
name = "Example CA"
certificate = ["r1.pem", "r1.der", "r1-crossed.pem"]
crls = ["http://crl.example/1.crl", "https://crl.example:8443/2.crl?a=b"]
names = {{ "http://crl.example/1.crl" = "ldap://crl.example/1" }}

[[log]]
name = "Example log"
kind = "static"
url = "https://log.example/2026/"
key = "{key_text(CURVE)}"
mmd = "1s"
first = 7
origin = "log.example/other"
""",
    )
    assert (config.state, config.site) == (Path("/tmp/elsewhere"), folder / "www/site")
    assert config.key == folder / "next.key"
    assert config.next_key == (folder / "next.pub").read_text().splitlines()[1]
    assert config.program == str(folder / "bin/clubcard")
    assert (config.valid_for, config.max_away, config.grace, config.keep) == (90_000, 0, 10 * MINUTE, 2 * HOUR)
    (issuer,), (log,) = config.issuers, config.logs
    assert len(issuer.certificates) == 2
    assert issuer.names == {"http://crl.example/1.crl": "ldap://crl.example/1"}
    assert issuer.crls == ("http://crl.example/1.crl", "https://crl.example:8443/2.crl?a=b")
    key = base64.b64decode(key_text(CURVE))
    assert (log.key, log.id) == (key, hashlib.sha256(key).digest())
    assert (log.kind, log.mmd, log.first, log.origin) == ("static", MINUTE, 7, "log.example/other")


def test_log_defaults(folder: Path) -> None:
    (log,) = loaded(folder, NAME + "\n" + LOG).logs
    assert (log.kind, log.url, log.mmd, log.first) == ("rfc6962", "https://log.example/2026/", 24 * HOUR, 0)
    assert log.origin == "log.example/2026"


def test_log_of_rsa(folder: Path) -> None:
    key = key_text(rsa.generate_private_key(65537, 2048))
    (log,) = loaded(folder, NAME + "\n" + LOG.replace(key_text(CURVE), key)).logs
    assert log.key == base64.b64decode(key)


@pytest.mark.parametrize(
    ("text", "told"),
    [
        ("nmae = 'x'", 'there is no key "nmae" here: is it "name"? Else take it out'),
        (f"{NAME}\nzzz = 1", 'there is no key "zzz" here'),
        (f"{NAME}\n{ISSUER}crl = []", '[[issuer]] 1 "Example CA": there is no key "crl" here: is it "crls"?'),
        (f"{NAME}\n{LOG}mdd = '1h'", '[[log]] 1 "Example log": there is no key "mdd" here: is it "mmd"?'),
        ("state = 'state'", 'the key "name" is missing: write name = "example"'),
        ("name = ''", "name: '' is empty"),
        ("name = 'a\\nb'".replace("'", '"'), "name: 'a\\nb' is empty or has control characters"),
        ("name = 7", 'name: 7 isn\'t of its type: write name = "example"'),
        ("name = ", "it is no TOML"),
        (f"{NAME}\nworkers = 0", "workers: 0 isn't within 1 and 64: 4 is usual"),
        (f"{NAME}\nworkers = true", "workers: True isn't of its type"),
        (f"{NAME}\nworkers = 4.0", "workers: 4.0 isn't of its type"),
        (f"{NAME}\nrebase_after = 65", "rebase_after: 65 isn't within 1 and 64"),
        (f"{NAME}\npatience = -1", "patience: -1 isn't within 0"),
        (f"{NAME}\nvalid_for = 24", 'valid_for: 24 isn\'t of its type: write valid_for = "24h"'),
        (f"{NAME}\nvalid_for = '24'", "valid_for: '24': a duration is a number and s, m, h or d"),
        (f"{NAME}\nvalid_for = '0h'", "valid_for: '0h': a duration is"),
        (f"{NAME}\ngrace = '-7d'", "grace: '-7d': a duration is"),
        (f"{NAME}\ngrace = '36501d'", "grace: '36501d': a duration is"),
        (f"{NAME}\ngrace = '{'9' * 5000}d'", "grace: "),
        (f"{NAME}\nkey = 'none.key'", "key: "),
        (f"{NAME}\nkey = 'r1.pem'", "key: "),
        (f"{NAME}\nkey = 'publisher.pub'", "key: "),
        (f"{NAME}\nnext_key = 'publisher.key'", "next_key: "),
        (f"{NAME}\nnext_key = 'none.pub'", "next_key: "),
        (f"{NAME}\nsite = '.'", "state: "),
        (f"{NAME}\nsite = 'state/site'", "site: "),
        (f"{NAME}\nstate = 'a'\nsite = 'a'", "state: "),
        (f"{NAME}\nissuer = 1", '"issuer" isn\'t a list of tables: write [[issuer]] above each'),
        (f"{NAME}\n[log]\nname = 'x'", '"log" isn\'t a list of tables: write [[log]] above each'),
    ],
)
def test_faults(folder: Path, text: str, told: str) -> None:
    assert told in fault_of(folder, text)


@pytest.mark.parametrize(
    ("old", "new", "told"),
    [
        ('["http://crl.example/r1.crl"]', "[]", "crls: it is empty"),
        ('["http://crl.example/r1.crl"]', "'http://crl.example/r1.crl'", "crls: 'http://crl.example/r1.crl' isn't of"),
        ('["http://crl.example/r1.crl"]', "['http://a/', 'http://a/']", "crls: 'http://a/' stands twice"),
        ('["http://crl.example/r1.crl"]', "['ldap://a/']", "crls: 'ldap://a/' is no URL that can be asked"),
        ('crls = ["http://crl.example/r1.crl"]', "", 'the key "crls" is missing'),
        ('["r1.pem"]', "[]", "certificate: it is empty"),
        ('["r1.pem"]', '["none.pem"]', "none.pem: there is no such file"),
        ('["r1.pem"]', '["text.pem"]', "text.pem: there is no certificate in it"),
        ('["r1.pem"]', '["r1.pem", "r2.pem"]', "certificate: these hold 2 different keys (r1.pem, r2.pem)"),
        ('["r1.pem"]', '["both.pem"]', "certificate: these hold 2 different keys (both.pem)"),
        ('"Example CA"', "7", "[[issuer]] 1: name: 7 isn't of its type"),
        ("[[issuer]]", "[[issuer]]\nnames = {'http://b/' = 'http://c/'}", "names: 'http://b/' is none of this"),
        ("[[issuer]]", "[[issuer]]\nnames = {'http://crl.example/r1.crl' = 7}", "names: 7 is no URL"),
        ("[[issuer]]", "[[issuer]]\nnames = 7", "names: 7 isn't of its type"),
    ],
)
def test_issuer_faults(folder: Path, old: str, new: str, told: str) -> None:
    assert old in ISSUER
    assert told in fault_of(folder, f"{NAME}\n{ISSUER.replace(old, new)}")


def test_points_of_one_name(folder: Path) -> None:
    text = ISSUER.replace('"http://crl.example/r1.crl"', "'http://a/', 'http://b/'")
    told = fault_of(folder, f"{NAME}\n{text}names = {{ 'http://a/' = 'http://b/' }}")
    assert "two of the crls go by 'http://b/'" in told
    swapped = f"{NAME}\n{text}names = {{ 'http://a/' = 'http://b/', 'http://b/' = 'http://a/' }}"
    assert loaded(folder, swapped).issuers[0].names["http://a/"] == "http://b/"


def test_one_key_in_two_issuers(folder: Path) -> None:
    other = ISSUER.replace("Example CA", "Renewed").replace("r1.pem", "r1-crossed.pem").replace("r1.crl", "2.crl")
    told = fault_of(folder, f"{NAME}\n{ISSUER}\n{other}")
    assert '[[issuer]] "Example CA" and "Renewed" have one key: list all its certificates in one of them' in told


def test_one_key_in_two_logs(folder: Path) -> None:
    told = fault_of(folder, f"{NAME}\n{LOG}\n{LOG.replace('2026', '2027')}")
    assert '[[log]] "Example log" and "Example log" have one key: take one of them out' in told


@pytest.mark.parametrize("limit, what", [("MOST_RANGES", "1 [[log]]"), ("MOST_CRLS", "1 URLs in crls")])
def test_more_than_a_job_takes(folder: Path, monkeypatch: pytest.MonkeyPatch, limit: str, what: str) -> None:
    """It is told at once, and not when the first job is written."""
    monkeypatch.setattr(f"clubcard.publish.config.{limit}", 0)
    with pytest.raises(ConfigError) as told:
        loaded(folder, f"{NAME}\n{ISSUER}{LOG}")
    assert f"it has {what}, and a job takes 0: make two chains of it" in str(told.value)


@pytest.mark.parametrize(
    ("old", "new", "told"),
    [
        ("https://", "", "url: 'log.example/2026' is no URL that can be asked"),
        ("2026", "2026?a=b", "url: 'https://log.example/2026?a=b' has a query"),
        (key_text(CURVE), "!", "key: it can't be taken"),
        (key_text(CURVE), "AAAA", "key: it can't be taken (no SubjectPublicKeyInfo"),
        (key_text(CURVE), "ä", "key: it can't be taken"),
        (key_text(CURVE), key_text(ed25519.Ed25519PrivateKey.generate()), "key: it can't be taken (neither"),
        (key_text(CURVE), key_text(ec.generate_private_key(ec.SECP384R1())), "key: it can't be taken (neither"),
        ("[[log]]", "[[log]]\nkind = 'tiles'", "kind: 'tiles' is no kind of log"),
        ("[[log]]", "[[log]]\norigin = 'a'", 'origin: only logs of kind "static" have one'),
        ("[[log]]", "[[log]]\nfirst = -1", "first: -1 isn't within 0"),
        ("[[log]]", f"[[log]]\nfirst = {1 << 63}", "isn't within 0"),
    ],
)
def test_log_faults(folder: Path, old: str, new: str, told: str) -> None:
    assert told in fault_of(folder, f"{NAME}\n{LOG.replace(old, new)}")


def test_key_with_a_password(folder: Path) -> None:
    lines = (folder / "publisher.key").read_text().splitlines()
    octets = bytearray(base64.b64decode(lines[1]))
    octets[2:4] = b"Sc"
    (folder / "locked.key").write_text(f"{lines[0]}\n{base64.b64encode(octets).decode()}\n")
    assert "has a password" in fault_of(folder, f"{NAME}\nkey = 'locked.key'")


def test_key_in_the_site(folder: Path) -> None:
    (folder / "www").mkdir(exist_ok=True)
    (folder / "www" / "publisher.key").write_bytes((folder / "publisher.key").read_bytes())
    told = fault_of(folder, f"{NAME}\nsite = 'www'\nkey = 'www/publisher.key'")
    assert "is in the site, which a web server shows" in told


def test_links(folder: Path) -> None:
    """The site by another name is the site; a link to itself is no fault of CONFIG's reader."""
    for name, target in (("elsewhere", "www2"), ("loop", "loop")):
        if not (folder / name).is_symlink():
            (folder / name).symlink_to(target)
    assert "is in the site" in fault_of(folder, f"{NAME}\nsite = 'www2'\nstate = 'elsewhere/state'")
    assert loaded(folder, f"{NAME}\nsite = 'loop/site'").site == folder / "loop/site"


def test_no_text(folder: Path) -> None:
    path = folder / "CONFIG.toml"
    path.write_bytes(b"name = '\xff'")
    with pytest.raises(ConfigError, match="byte 8 is no UTF-8"):
        load(path)
    with pytest.raises(ConfigError, match="can't be read"):
        load(folder)
    with pytest.raises(ConfigError, match="can't be read"):
        load(folder / "none.toml")


def test_nested_too_deep(folder: Path) -> None:
    assert "it is no TOML" in fault_of(folder, "a = " + "[" * 100_000)


def test_hints(folder: Path) -> None:
    assert len(hints(loaded(folder, f"{NAME}\nrebase_after = 60"))) == 3
    assert not hints(loaded(folder, f"{NAME}\n{ISSUER}\n{LOG}"))


@pytest.mark.parametrize(
    ("text", "found"),
    [("90s", 90_000), ("10m", 600_000), ("24h", DAY), ("7d", 7 * DAY), ("0s", 0), ("007d", 7 * DAY)]
    + [(text, None) for text in ("", "s", "7", "7 d", "7D", "1.5h", "-1h", "1h1m", "7w", "٣s")],
)
def test_durations(text: str, found: int | None) -> None:
    assert duration(text) == found


@pytest.mark.parametrize(
    "url", ["http://a", "https://a/", "http://127.0.0.1:80/x?y", "http://[::1]:8080/", "HTTP://a/%20"]
)
def test_urls(url: str) -> None:
    assert url_fault(url) is None


@pytest.mark.parametrize(
    "url",
    [
        "",
        "a",
        "//a",
        "http:",
        "http://",
        "http:///a",
        "ftp://a",
        "http://a b",
        "http://ä/",
        "http://a/\n",
        "http://[::1",
    ]
    + ["http://a:b@c/", "http://u@c/", "http://a:99999/", "http://a:0/", "http://a:x/", "http://a/#b", "file:///etc"],
)
def test_no_urls(url: str) -> None:
    assert url_fault(url)


VALUES = st.recursive(
    st.none() | st.booleans() | st.integers() | st.floats() | st.text(max_size=20) | st.sampled_from(["r1.pem", "7d"]),
    lambda inner: st.lists(inner, max_size=3) | st.dictionaries(st.text(max_size=9), inner, max_size=3),
    max_leaves=8,
)
KEYS = "name state site key next_key program workers valid_for rebase_after patience issuer log certificate crls names"


def toml(value: object) -> str:
    """A value as TOML."""
    if isinstance(value, dict):
        return "{" + ", ".join(f"{toml(str(key))} = {toml(each)}" for key, each in value.items()) + "}"
    if isinstance(value, list):
        return "[" + ", ".join(toml(each) for each in value) + "]"
    if isinstance(value, str):
        return '"' + "".join(f"\\U{ord(letter):08x}" for letter in value) + '"'
    return "''" if value is None else str(value).lower()


@settings(
    deadline=None, max_examples=150, suppress_health_check=[HealthCheck.function_scoped_fixture, HealthCheck.too_slow]
)
@given(top=st.sampled_from(KEYS.split()), table=st.sampled_from(["", "issuer", "log"]), value=VALUES)
def test_any_value_is_told(folder: Path, top: str, table: str, value: object) -> None:
    """Whatever stands at a key, it is taken, or refused with its place."""
    begin = {"": "", "issuer": ISSUER, "log": LOG}[table]
    text = NAME + "\n" + begin
    kept = [line for line in text.splitlines() if not line.startswith(f"{top} =")]
    place = len(kept) if table else 0
    kept.insert(place, f"{top} = {toml(value)}")
    try:
        loaded(folder, "\n".join(kept))
    except ConfigError as fault:
        assert str(fault).startswith(str(folder / "CONFIG.toml"))
