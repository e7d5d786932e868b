"""Elements of DER, one by one, for the second program: tags of one byte, lengths in the least form of at most four octets
(docs/FORMATS.md, "DER")."""


class Malformed(Exception):
    """The bytes aren't of the form that was asked for."""


class Walk:
    """Takes elements from the front of some bytes."""

    def __init__(self, octets: bytes) -> None:
        self.left = octets

    def take(self, what: str, tag: int | None = None) -> tuple[bytes, bytes]:
        """The contents of the next element and the whole of it. Without a tag, any is taken."""
        if len(self.left) < 2 or self.left[0] & 0x1F == 0x1F:
            raise Malformed(f"there is no {what}")
        start, length = 2, self.left[1]
        if length >= 0x80:
            octets = length - 0x80
            start += octets
            length = int.from_bytes(self.left[2:start], "big")
            least = max(0x80, 1 << (8 * (octets - 1))) if octets else 0
            if not 1 <= octets <= 4 or len(self.left) < start or length < least:
                raise Malformed(f"the length of {what} is wrong")
        whole = self.left[: start + length]
        if len(whole) < start + length:
            raise Malformed(f"{what} is cut short")
        if tag is not None and whole[0] != tag:
            raise Malformed(f"{what} has the tag {whole[0]:02x} in place of {tag:02x}")
        self.left = self.left.removeprefix(whole)
        return whole[start:], whole

    def skip(self, what: str, tag: int) -> None:
        """Takes the next element where it has this tag."""
        if self.left[:1] == bytes([tag]):
            self.take(what, tag)
