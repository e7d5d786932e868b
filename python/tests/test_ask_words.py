"""What `clubcardctl ask` takes in place of a certificate: serials, logs, issuers and times as other programs print
them."""

import datetime
import subprocess
from base64 import b64encode
from pathlib import Path

import pytest
from cryptography import x509
from hypothesis import given, settings, strategies as st

import made
from asked import LATE, SERIALS, WORDS, Small, ctl, ends
from clubcard import serial_from_int
from clubcard.ctl import notations
from clubcard.ctl.words import Wrong
from clubcard.pki import read_certificate


@pytest.fixture(name="small", scope="module")
def fixture_small(tmp_path_factory: pytest.TempPathFactory) -> Small:
    return Small(tmp_path_factory.mktemp("ask"))


def openssl(file: Path, *words: str) -> str:
    """What openssl prints of a certificate."""
    command = ["openssl", "x509", "-noout", "-in", str(file), *words]
    return subprocess.run(command, capture_output=True, text=True, check=True).stdout


@pytest.mark.parametrize("name, status", [("good", 0), ("revoked", 1), ("late", 3), ("number", 0)])
def test_by_serial(small: Small, name: str, status: int) -> None:
    """Each way to write a serial asks by the octets that stand in the certificate."""
    number, octets = SERIALS[name], read_certificate(small[f"elm-{name}.der"].read_bytes()).serial
    line = f"{WORDS[status]} serial {octets.hex()}\n"
    colons = ":".join(f"{octet:02x}" for octet in octets)
    text = openssl(small[f"elm-{name}.pem"], "-text")
    of_text = text[text.index("Serial Number:") :].splitlines()
    printed = [openssl(small[f"elm-{name}.pem"], "-serial").strip(), of_text[0] if "0x" in of_text[0] else of_text[1]]
    written = [hex(number), f"0X{octets.hex().upper()}", colons, colons.upper(), colons.replace(":", " ")]
    for serial in [*printed, *written, f"0{number:X}" if number == 0x81 else f"00{octets.hex()}"]:
        result = ctl("ask", small.store, *small.by_serial(name, serial=serial))
        assert (result.exit_code, result.stdout) == (status, line), serial


@given(st.integers(0, (1 << 255) - 1))
@settings(max_examples=60, deadline=None)
def test_serials(number: int) -> None:
    """Any number in each notation, with or without zeros in front, has the octets of its DER."""
    octets = serial_from_int(number)
    digits = f"{number:x}"
    whole = digits if len(digits) % 2 == 0 else f"0{digits}"
    pairs = [whole[at : at + 2] for at in range(0, len(whole), 2)]
    words = [f"0x{digits}", f"0x00{digits}", f"serial={whole.upper()}", f"{number} (0x{digits})", str(number)]
    words += [":".join(["00", *pairs]), " ".join(["00", *pairs]).upper(), f"00{whole}", f" {number}\n"]
    if not whole.isdecimal():
        words.append(whole)
    for word in words:
        assert notations.serial(word).octets == octets, word


@given(st.text(alphabet="0123456789abcdefxX:= -()g", max_size=80))
@settings(max_examples=150, deadline=None)
def test_other_serials(word: str) -> None:
    """Whatever the word is, it is a serial of 1 to 32 octets, not below 0, or is refused."""
    try:
        found = notations.serial(word)
    except Wrong:
        return
    for octets in (found.octets, found.other or b"\0"):
        assert serial_from_int(int.from_bytes(octets, "big")) == octets


def test_a_serial_with_two_readings(small: Small) -> None:
    """Decimal digits alone are a number. Where the store says another thing of the hexadecimal ones it is a fault."""
    same = set()
    for word in [*map(str, SERIALS.values()), *map(str, range(70, 100)), "81", "129", "5"]:
        said, other = (
            ctl("ask", small.store, *small.by_serial("good", serial=each)) for each in (hex(int(word)), f"0x{word}")
        )
        result = ctl("ask", small.store, *small.by_serial("good", serial=word))
        same.add(said.exit_code == other.exit_code)
        if said.exit_code == other.exit_code:
            assert (result.exit_code, result.stdout, result.stderr) == (said.exit_code, said.stdout, "")
        else:
            assert (result.exit_code, result.stdout) == (6, "")
            assert f"the verdicts differ: write 0x{serial_from_int(int(word)).hex()} or 0x" in result.stderr
            ends("the verdicts differ", 6, "explain", small.store, *small.by_serial("good", serial=word))
    assert same == {True, False}
    # Nothing is told where it isn't covered, since both are the same then.
    result = ctl("ask", small.store, *small.by_serial("late", serial="81"))
    assert (result.stdout, result.stderr) == ("not-covered serial 51\n", "")
    assert notations.serial("1" * 66).other is None and notations.serial("9" * 64).other is None
    assert (notations.serial("1000").other, notations.serial("129").other) == (b"\x10\x00", b"\x01\x29")


def test_octets_of_serials_below_0(small: Small) -> None:
    """Octets with colons are those of a number above 0, as --help says."""
    assert ctl("ask", small.store, *small.by_serial("good", serial="d0:0a")).stdout == "good serial 00d00a\n"
    text = " ".join(ctl("ask", "--help").stdout.split())
    assert "d0:0a is 00d00a. Of one below 0 Firefox prints the same octets: give CERT." in text


def test_issuers_and_logs(small: Small) -> None:
    """The issuer by its key hash or by its certificate, and the log by the ways to write its id."""
    line = "good serial 00d00a\n"
    key = small.key("elm")
    colons = ":".join(key[at : at + 2] for at in range(0, 64, 2)).upper()
    for issuer in (key, colons, small["elm.pem"], small["elm.der"]):
        assert ctl("ask", small.store, *small.by_serial("good", issuer=str(issuer))).stdout == line
    assert ctl("ask", small.store, *small.by_serial("good", issuer=small.key("oak"))).stdout[:12] == "not-enrolled"
    digits = made.LOG.hex()
    for log in (digits, ":".join(["AA"] * 32), b64encode(made.LOG).decode()):
        assert ctl("ask", small.store, *small.by_serial("good", log=log)).stdout == line
    more = ["--log", "bb" * 32, "--time", "2023-11-14T22:13"]
    assert ctl("ask", small.store, *small.by_serial("good"), *more).stdout == line
    assert ctl("ask", small.store, *small.by_serial("good", log="bb" * 32)).stdout == "not-covered serial 00d00a\n"


@pytest.mark.parametrize(
    "word, time, length",
    [
        ("1700000000000", 1700000000000, 1),
        ("2023-11-14T22:13:20Z", 1700000000000, 1000),
        ("2023-11-14T22:13:20.123Z", 1700000000123, 1),
        ("2023-11-14 22:13:20", 1700000000000, 1000),
        ("2023-11-14T23:13:20.5+01:00", 1700000000500, 1),
        ("20231114T221320Z", 1700000000000, 1000),
        ("20231114T221320,5-0000", 1700000000500, 1),
        ("2023-11-14T23:13+01:00", 1699999980000, 60000),
        ("2023-11-14t2213", 1699999980000, 60000),
        ("2023-11-14  22:13:20 UTC", 1700000000000, 1000),
        ("Nov 14 22:13:20.123 2023 GMT", 1700000000123, 1),
        ("Nov 14 22:13:20 2023 GMT", 1700000000000, 1000),
    ],
)
def test_times(small: Small, word: str, time: int, length: int) -> None:
    """Each is taken to its milliseconds, and where it has none to its second or minute."""
    assert notations.moment(word, "--time") == (time, time + length - 1)
    covered = made.MOMENT <= time and time + length - 1 <= made.MOMENT + 1000
    result = ctl("ask", small.store, *small.by_serial("good", time=word))
    assert result.stdout == f"{'good' if covered else 'not-covered'} serial 00d00a\n"


@pytest.mark.parametrize("name, status", [("good", 0), ("revoked", 1)])
def test_times_that_are_covered_in_part(small: Small, name: str, status: int) -> None:
    """The range ends at the first millisecond of a second."""
    for word, told in (
        ("2023-11-14T22:13:21Z", f"at the first millisecond of --time it is {name}, at the last not-covered"),
        ("Nov 14 22:13:21 2023 GMT", "write the milliseconds too"),
    ):
        result = ends(told, 3, "ask", small.store, *small.by_serial(name, time=word))
        assert result.stdout.startswith("not-covered serial")
    ends(name, status, "ask", small.store, *small.by_serial(name, time="2023-11-14T22:13:21.000Z"))
    ends(name, status, "ask", small.store, *small.by_serial(name, time="2023-11-14T22:13:20Z"))


def test_the_dates_of_openssl(small: Small) -> None:
    """What openssl prints of a certificate's timestamps is taken: its log's id, and its date."""
    text = openssl(small["elm-late.pem"], "-text")
    log = "".join(text[text.index("Log ID") :].partition(":")[2].split("Timestamp")[0].split())
    date = text[text.index("Timestamp ") :].partition(":")[2].splitlines()[0].strip()
    assert notations.log_id(log) == made.LOG and notations.moment(date, "--time") == (LATE, LATE)
    assert datetime.datetime.strptime(date, "%b %d %H:%M:%S.%f %Y GMT").year == 2023
    theirs = x509.load_pem_x509_certificate(small["elm-late.pem"].read_bytes())
    assert theirs.serial_number == SERIALS["late"]


@pytest.mark.parametrize(
    "words, text",
    [
        ({"serial": "-5"}, "a serial below 0"),
        ({"serial": " (Negative)05:d0"}, "a serial below 0"),
        ({"serial": "04d0zz"}, "this is no serial; write it as 04:d0:0a"),
        ({"serial": "4:d0"}, "this is no serial"),
        ({"serial": "0x"}, "this is no serial"),
        ({"serial": "\u0661\u0662"}, "this is no serial"),
        ({"serial": "129 (0x82)"}, "the two numbers differ"),
        ({"serial": "0x" + "f" * 64}, "32 octets at most"),
        ({"serial": "9" * 5000}, "32 octets at most"),
        ({"log": "aa"}, "a log id has 64 hexadecimal digits"),
        ({"log": made.LOG.hex()[:-1] + "g"}, "a log id has 64 hexadecimal digits"),
        ({"issuer": "11" * 31}, "or the SHA-256 of its SubjectPublicKeyInfo"),
        ({"time": "1700000000"}, "if these are seconds, write 1700000000000"),
        ({"time": "yesterday"}, "write 2026-11-30T19:00:00.000Z"),
        ({"time": "2023-11-14"}, "there is no time of day to the minute behind the date; write 2026"),
        ({"time": "2023-11-14 UTC"}, "there is no time of day"),
        ({"time": "2023-11-14T22Z"}, "there is no time of day"),
        ({"time": "2023-11-14+22:13"}, "there is no time of day"),
        ({"time": "1999-01-01"}, "no log of certificates is as old as this"),
        ({"time": "0001-01-01T00:00:00+23:00"}, "--time 0001"),
        ({"time": str(1 << 64)}, "not a number below 2^64"),
    ],
)
def test_wrong_words(small: Small, words: dict[str, str], text: str) -> None:
    assert ends(text, 2, "ask", small.store, *small.by_serial("good", **words)).stdout == ""


def test_words_that_are_missing(small: Small) -> None:
    whole = small.by_serial("good")
    for place in range(0, len(whole), 2):
        ends("--log", 2, "ask", small.store, *whole[:place], *whole[place + 2 :])
        ends("--log", 2, "ask", small.store, *whole[place : place + 2])
    ends("stand in pairs", 2, "ask", small.store, *whole, "--log", "bb" * 32)
    ends("stand in pairs", 2, "ask", small.store, *whole, *["--log", "bb" * 32, "--time", "2023-11-14T22:13"] * 64)
    ends("this is no serial", 2, "ask", small.store, *small.by_serial("good", serial=""))
