"""Orders by their names here, and what a bitarray is made of, or made longer by."""
# mypy: ignore-errors

import sys
from operator import index

from ..bits import Bits
from ..codes import Lsb0, Msb0

ORDERS = {"little": Lsb0, "big": Msb0}
NAMES = {order: name for name, order in ORDERS.items()}
_default = Msb0
# The digits of the bytes 0 and 1, and a letter of others, which is no digit.
DIGITS = b"01" + 254 * b"x"


def order_of(endian):
    """The order of a name, or the default one."""
    if endian is None:
        return _default
    if not isinstance(endian, str):
        raise TypeError(f"bit endianness must be a str, not {type(endian).__name__}")
    if endian not in ORDERS:
        raise ValueError(f"bit endianness must be either 'little' or 'big', not {endian!r}")
    return ORDERS[endian]


def get_default_endian():
    """The name of the order of bitarrays that are made without one."""
    return NAMES[_default]


def _set_default_endian(endian, /):
    """Changes that order."""
    global _default
    _default = order_of(endian)


def bit_of(value):
    """A bit that is an integer."""
    number = index(value)
    if number not in (0, 1):
        raise ValueError(f"bit must be 0 or 1, got {number}")
    return number


def length_of(number):
    """A number of bits, or of places."""
    if number < 0:
        raise ValueError("a number of bits cannot be negative")
    if number > sys.maxsize - 8:
        raise OverflowError("too many bits")
    return number


def checked(bits):
    """What has to be a bitarray."""
    if not isinstance(bits, Bits):
        raise TypeError(f"bitarray expected, got {type(bits).__name__}")
    return bits


def text_of(values):
    """The digits of a list of integers that are 0 or 1."""
    text = bytes(values).translate(DIGITS).decode()
    if "x" in text:
        raise ValueError("bit must be 0 or 1")
    return text


def several(given, order):
    """The bits of what may be added to others: bits, a text or an iterable."""
    if isinstance(given, Bits):
        return given
    if isinstance(given, str):
        given.encode("ascii")
        return Bits.from_string(given.replace("_", ""), order)
    if isinstance(given, (bytes, bytearray)):
        raise TypeError(f"cannot extend bitarray with {type(given).__name__!r}, use .pack() or .frombytes() instead")
    return Bits.from_string(text_of(list(given)), order)


def unpickled(data, order):
    """The bits of bytes that `bitarray` 1 and 2 put into a pickle: of them the first says how many bits the last doesn't have."""
    head = data[0]
    if order is None:
        raise ValueError("endianness missing for pickle")
    if head and len(data) == 1:
        raise ValueError(f"invalid pickle header byte: 0x{head:02x}")
    bits = Bits.from_bytes(data[1:], order)
    return bits[: len(bits) - head]


def filled(kind, given, order, is_named):
    """A bitarray of a kind of all that may be given."""
    if given is None:
        return kind.zeros(0, order)
    if hasattr(type(given), "__index__") and not isinstance(given, bool):
        return kind.zeros(length_of(index(given)), order)
    if isinstance(given, bytes) and given and given[0] < 8:
        given = unpickled(given, order if is_named else None)
    elif isinstance(given, Bits) and not is_named:
        order = given.order
    return Bits.__add__(kind.zeros(0, order), several(given, order))
