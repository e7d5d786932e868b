"""`clubcardctl ask --host`: TLS servers on loopback, with certificates that `cryptography` makes."""

import contextlib
import socket
import ssl
import threading
from collections.abc import Iterator
from pathlib import Path

import pytest
from cryptography.hazmat.primitives import serialization
from cryptography.hazmat.primitives.asymmetric import ec

import made
from asked import SERIALS, WORDS, Small, answers, ctl, ends, stamped, timestamp
from clubcard.ctl import hosts

EXPECTED = {"good": 0, "revoked": 1}


@pytest.fixture(name="small", scope="module")
def fixture_small(tmp_path_factory: pytest.TempPathFactory) -> Small:
    """The store, and for servers certificates of these serials whose keys are known: NAME.host has key and chain."""
    small = Small(tmp_path_factory.mktemp("hosts"))
    key = ec.generate_private_key(ec.SECP256R1())
    secret = key.private_bytes(
        serialization.Encoding.PEM, serialization.PrivateFormat.PKCS8, serialization.NoEncryption()
    )
    for name in EXPECTED:
        certificate = small.elm.issue(SERIALS[name], [stamped(timestamp(made.LOG, made.MOMENT))], key)
        small[f"{name}.alone"].write_bytes(secret + made.pem_of(certificate))
        small[f"{name}.host"].write_bytes(small[f"{name}.alone"].read_bytes() + small["elm.pem"].read_bytes())
    return small


@contextlib.contextmanager
def serving(chain: Path | None, family: socket.AddressFamily = socket.AF_INET) -> Iterator[int]:
    """A server on loopback that shows a chain to each who comes; without one it speaks no TLS. The result is its
    port."""
    with socket.create_server(("::1" if family == socket.AF_INET6 else "127.0.0.1", 0), family=family) as server:
        thread = threading.Thread(target=serve, args=(server, chain), daemon=True)
        thread.start()
        port = int(server.getsockname()[1])
        try:
            yield port
        finally:
            # Whoever waits for a caller wakes, and finds that it is over.
            with contextlib.suppress(OSError):
                server.shutdown(socket.SHUT_RDWR)
            thread.join()


def serve(server: socket.socket, chain: Path | None) -> None:
    """Answers until the socket is shut."""
    context = ssl.SSLContext(ssl.PROTOCOL_TLS_SERVER)
    if chain is not None:
        context.load_cert_chain(chain)
    with contextlib.suppress(OSError):
        while True:
            connection, _ = server.accept()
            with connection, contextlib.suppress(OSError):
                if chain is None:
                    connection.sendall(b"220 this is another protocol\r\n")
                    continue
                with context.wrap_socket(connection, server_side=True) as session:
                    session.recv(1)


@pytest.mark.parametrize("name", EXPECTED)
def test_hosts(small: Small, name: str) -> None:
    """By name and by address; alone, and beside a file."""
    status = EXPECTED[name]
    with serving(small[f"{name}.host"]) as port:
        for host in (f"localhost:{port}", f"127.0.0.1:{port}"):
            result = ctl("ask", small.store, "--host", host)
            assert (result.exit_code, result.stdout, result.stderr) == (status, f"{WORDS[status]} {host}\n", "")
        (found,) = answers(small.store, "--host", f"127.0.0.1:{port}")
        assert (found["verdict"], int(found["serial"], 16)) == (WORDS[status], SERIALS[name])
        result = ctl("ask", small.store, "--host", f"127.0.0.1:{port}", small["elm-late.chain"])
        assert result.stdout.split()[::2] == ["not-covered", WORDS[status]]


def test_several_hosts(small: Small) -> None:
    """They are asked at once, and told in the order of the words."""
    with serving(small["good.host"]) as good, serving(small["revoked.host"]) as revoked:
        words = [word for port in [good, revoked] * 12 for word in ("--host", f"127.0.0.1:{port}")]
        lines = [f"good 127.0.0.1:{good}\n", f"revoked 127.0.0.1:{revoked}\n"] * 12
        result = ctl("ask", small.store, *words)
        assert (result.exit_code, result.stdout) == (1, "".join(lines))


@pytest.mark.skipif(not socket.has_ipv6, reason="there is no IPv6")
def test_addresses_of_ipv6(small: Small) -> None:
    try:
        with serving(small["good.host"], socket.AF_INET6) as port:
            ends("good", 0, "ask", small.store, "--host", f"[::1]:{port}")
    except OSError as error:
        pytest.skip(f"no server on ::1: {error}")


def test_a_server_without_the_issuer(small: Small) -> None:
    with serving(small["good.alone"]) as port:
        host = f"localhost:{port}"
        ends("give that of its issuer, CN=elm", 5, "ask", small.store, "--host", host)
        ends("good", 0, "ask", "-i", small["elm.pem"], small.store, "--host", host)
        ends("didn't issue", 5, "ask", "-i", small["oak.pem"], small.store, "--host", host)


def test_hosts_that_are_not_reached(small: Small) -> None:
    """Each has the status of its own, and nothing else is lost."""
    with serving(None) as port:
        ends("no TLS server answers", 8, "ask", small.store, "--host", f"localhost:{port}")
        with socket.create_server(("127.0.0.1", 0)) as other:
            free = other.getsockname()[1]
        result = ctl("ask", small.store, "--host", f"127.0.0.1:{free}", small["elm-good.chain"])
        assert (result.exit_code, result.stdout) == (8, f"good {small['elm-good.chain']}\n")
        assert "look at the name, the port and the network" in result.stderr
    (found,) = answers(small.store, "--host", "absent.invalid")
    assert (found["verdict"], found["fault"], found["status"]) == (None, "no-host", 8)


def test_a_server_that_says_nothing(small: Small, monkeypatch: pytest.MonkeyPatch) -> None:
    """It is waited for no longer than the program says."""
    monkeypatch.setattr(hosts, "TIMEOUT", 0.05)
    with socket.create_server(("127.0.0.1", 0)) as silent:
        port = silent.getsockname()[1]
        ends("no TLS server answers", 8, "ask", small.store, "--host", f"127.0.0.1:{port}")


@pytest.mark.parametrize(
    "word", ["", ":443", "host:", "host:0", "host:65536", "::1", "a b", "[::1", "host:443:1", "[]"]
)
def test_words_that_are_no_hosts(small: Small, word: str) -> None:
    ends("this is no NAME[:PORT]", 2, "ask", small.store, "--host", word)
