"""Methods of Bits by bytes: a byte for each bit, and files."""

from __future__ import annotations

from operator import index
from typing import IO, TYPE_CHECKING, SupportsIndex

if TYPE_CHECKING:
    from _typeshed import ReadableBuffer

    from .bits import Bits

# The digit of each byte: that of 0, and that of the others.
DIGITS = b"0" + 255 * b"1"


def digits(bits: Bits) -> str:
    """The bits as digits, also of a class whose text is another."""
    from .bits import Bits

    return Bits.__str__(bits)


def pack(bits: Bits, data: ReadableBuffer) -> None:
    """Adds a bit for each byte, which is 0 where the byte is."""
    with memoryview(data) as view:
        bits.extend(bytes(view).translate(DIGITS).decode())


def unpack(bits: Bits, zero: bytes = b"\0", one: bytes = b"\1") -> bytes:
    """A byte for each bit."""
    if len(zero) != 1 or len(one) != 1:
        raise TypeError("a bit gives one byte")
    return digits(bits).encode().translate(bytes.maketrans(b"01", zero + one))


def tofile(bits: Bits, file: IO[bytes]) -> None:
    """Writes the bytes that to_bytes gives to a file."""
    file.write(bits.to_bytes())


def fromfile(bits: Bits, file: IO[bytes], size: SupportsIndex = -1) -> None:
    """Adds the bits of so many bytes of a file, or of the rest of it. EOFError: there were fewer, which were added."""
    number = index(size)
    data = file.read(number)
    bits += type(bits).from_bytes(data, bits.order)
    if len(data) < number:
        raise EOFError(f"{len(data)} bytes of {number}")
