"""Octets of certificates and logs, written by hand where no library writes them."""

SCT_LIST = "1.3.6.1.4.1.11129.2.4.2"
_POISON = bytes.fromhex("3013060a2b06010401d6790204030101ff04020500")


def be(number: int, width: int) -> bytes:
    """A number in so many bytes, the greatest first."""
    return number.to_bytes(width, "big")


def vector(octets: bytes, width: int) -> bytes:
    """A vector of TLS: its length in `width` bytes, and its bytes."""
    return be(len(octets), width) + octets


def der(tag: int, *contents: bytes) -> bytes:
    """A DER element with the least form of the length."""
    body = b"".join(contents)
    if len(body) < 128:
        return bytes([tag, len(body)]) + body
    length = be(len(body), (len(body).bit_length() + 7) // 8)
    return bytes([tag, 0x80 + len(length)]) + length + body


def _head(octets: bytes, at: int) -> tuple[int, int]:
    """Where the contents of the element at an offset begin, and where they end."""
    first = octets[at + 1]
    if first < 128:
        return at + 2, at + 2 + first
    begin = at + 2 + first - 128
    return begin, begin + int.from_bytes(octets[at + 2 : begin], "big")


def without_poison(tbs: bytes) -> bytes:
    """The TBS of a precertificate without its poison extension (RFC 6962, 3.2). The extensions stand last in a TBS."""
    begin, end = _head(tbs, 0)
    at = begin
    while tbs[at] != 0xA3:
        at = _head(tbs, at)[1]
    extensions = tbs[slice(*_head(tbs, _head(tbs, at)[0]))]
    if extensions.count(_POISON) != 1:
        raise ValueError("not one poison extension")
    return der(0x30, tbs[begin:at], der(0xA3, der(0x30, extensions.replace(_POISON, b""))))


def with_other_serial(tbs: bytes) -> bytes:
    """A TBS of version 3 with another serial of the same length."""
    version_end = _head(tbs, _head(tbs, 0)[0])[1]
    last = _head(tbs, version_end)[1] - 1
    return tbs[:last] + bytes([tbs[last] ^ 1]) + tbs[last + 1 :]


def sct_list(timestamps: list[bytes]) -> bytes:
    """The value of the extension that embeds timestamps (RFC 6962, 3.3)."""
    return der(4, vector(b"".join(vector(one, 2) for one in timestamps), 2))


def serial_octets(serial: int) -> bytes:
    """The contents octets of a positive INTEGER."""
    return be(serial, serial.bit_length() // 8 + 1)
