"""Bytes-like values: tested, kept as bytes, or lent to the library where they lie; and the octets of a serial."""

import contextlib
import ctypes
import mmap
from typing import Iterator, Optional, Tuple, Union

# Any value with the buffer protocol whose items have one byte is taken, as one of these.
BytesLike = Union[bytes, bytearray, memoryview, mmap.mmap]

# The bytes of a SHA-256, and of a log's id.
KEY = 32
# The most octets of a serial (`MAX_SERIAL` of the crate ident_core). RFC 5280 (4.1.2.2) asks for 20 at most.
MAX_SERIAL = 32


class _Buffer(ctypes.Structure):
    """`Py_buffer` of CPython, whose layout is a part of its stable interface from 3.11 on."""

    _fields_ = [
        ("buf", ctypes.c_void_p),
        ("obj", ctypes.c_void_p),
        ("len", ctypes.c_ssize_t),
        ("itemsize", ctypes.c_ssize_t),
        ("readonly", ctypes.c_int),
        ("ndim", ctypes.c_int),
        ("format", ctypes.c_char_p),
        ("shape", ctypes.c_void_p),
        ("strides", ctypes.c_void_p),
        ("suboffsets", ctypes.c_void_p),
        ("internal", ctypes.c_void_p),
    ]


# Functions of our own, since the types of those of `ctypes.pythonapi` are for all who use them.
_OF_BUFFER = ctypes.POINTER(_Buffer)
_get_buffer = ctypes.PYFUNCTYPE(ctypes.c_int, ctypes.py_object, _OF_BUFFER, ctypes.c_int)(
    ("PyObject_GetBuffer", ctypes.pythonapi)
)
_release_buffer = ctypes.PYFUNCTYPE(None, _OF_BUFFER)(("PyBuffer_Release", ctypes.pythonapi))
# The flags for bytes that are only read, and lie one behind another.
_SIMPLE = 0


def bytes_like(given: BytesLike, what: str) -> BytesLike:
    """The same value, where it is bytes-like. Whatever else it is, is a TypeError."""
    try:
        view = memoryview(given)
    except TypeError:
        raise TypeError(f"{what} is given as bytes, and not as {type(given).__name__}") from None
    with view:
        if view.itemsize != 1 or not view.c_contiguous:
            raise TypeError(f"{what} is given as items of one byte that lie one behind another")
    return given


def octets_of(given: BytesLike, what: str) -> bytes:
    """The bytes of a bytes-like value. Bytes never change, and are taken as they are."""
    return given if type(given) is bytes else memoryview(bytes_like(given, what)).tobytes()


def key_of(given: BytesLike, what: str) -> bytes:
    """The bytes of a key's hash, or of a log's id. Where they aren't 32, it is a ValueError."""
    key = octets_of(given, what)
    if len(key) != KEY:
        raise ValueError(f"{what} has {KEY} bytes, and not {len(key)}")
    return key


def serial_of(given: BytesLike) -> bytes:
    """The octets of a serial, of which the library says whether they are too few or too many."""
    if isinstance(given, int):
        raise TypeError("a serial is given as bytes, and not as int: serial_from_int makes them")
    return octets_of(given, "a serial")


def serial_from_int(number: int) -> bytes:
    """The octets of a serial that is known as a number: the contents of its DER INTEGER (X.690, 8.3).

    These are the fewest octets of the number in two's complement, so that 208 is `00 d0`. Whatever isn't an int is a
    TypeError. A number below 0, and one of more than 32 octets, is a ValueError: no store knows such a serial.
    """
    if not isinstance(number, int) or isinstance(number, bool):
        raise TypeError(f"a number is given as int, and not as {type(number).__name__}")
    if number < 0:
        raise ValueError("a serial's number is 0 or greater; give the octets of another one as bytes")
    # One bit more than the number has, for the sign.
    octets = number.bit_length() // 8 + 1
    if octets > MAX_SERIAL:
        raise ValueError(f"a serial has {MAX_SERIAL} octets at most, and not {octets}")
    return number.to_bytes(octets, "big")


@contextlib.contextmanager
def lent(given: BytesLike) -> Iterator[Tuple[Optional[int], int]]:
    """Lends bytes where they lie: their address and how many they are. Meanwhile nobody can move or close them."""
    buffer = _Buffer()
    _get_buffer(given, ctypes.byref(buffer), _SIMPLE)
    try:
        yield buffer.buf, buffer.len
    finally:
        _release_buffer(ctypes.byref(buffer))
