"""The certificates that a TLS server shows."""

import re
import socket
import ssl
from typing import Any

from .words import Wrong

TIMEOUT = 10.0
_PORT = 443
_HOST = re.compile(r"(?:\[(?P<six>[0-9A-Fa-f:.%]+)\]|(?P<name>[^:\[\]\s]+))(?::(?P<port>[0-9]{1,5}))?")
# ENCODING_DER of CPython's module _ssl.
_DER = 2


class HostError(Exception):
    """A host showed no certificates: why, and what to do."""


def _place_of(word: str) -> tuple[str, int]:
    """The name, or the address, and the port of NAME[:PORT]."""
    found = _HOST.fullmatch(word)
    port = int(found["port"] or _PORT) if found else 0
    if found is None or not 0 < port < 1 << 16:
        raise Wrong(f"{word}: this is no NAME[:PORT]; an address of IPv6 stands in brackets, as [::1]:443")
    return found["six"] or found["name"], port


def _shown(connection: ssl.SSLSocket) -> list[bytes]:
    """The certificates of a connection's other end in DER, its own first. Python before 3.13 gives the others by the
    object below the socket alone."""
    session: Any = connection if hasattr(connection, "get_unverified_chain") else getattr(connection, "_sslobj")
    shown = session.get_unverified_chain() or []
    return [each if isinstance(each, bytes) else each.public_bytes(_DER) for each in shown]


def chain_of(word: str) -> list[bytes]:
    """The certificates in DER that a TLS server at NAME[:PORT] shows, its own first. Nothing is verified: neither its
    name, nor whom it trusts. Else it raises `HostError`."""
    name, port = _place_of(word)
    context = ssl.SSLContext(ssl.PROTOCOL_TLS_CLIENT)
    context.check_hostname = False
    context.verify_mode = ssl.CERT_NONE
    try:
        with socket.create_connection((name, port), TIMEOUT) as plain:
            with context.wrap_socket(plain, server_hostname=name) as connection:
                shown = _shown(connection)
    except (OSError, ValueError) as error:
        raise HostError(
            f"{word}: no TLS server answers ({error}); look at the name, the port and the network"
        ) from error
    if not shown:
        raise HostError(f"{word}: the server shows no certificate; give one by its file")
    return shown
