"""Bits as texts, numbers of any size, hexadecimal digits, tables and arrays of numpy: methods of Bits."""

from __future__ import annotations

from typing import TYPE_CHECKING, Any

from .codes import Lsb0, Order

if TYPE_CHECKING:
    import numpy
    from numpy.typing import NDArray

    from .bits import Bits, Own


def side(order: Order) -> Any:
    """The byte order, or the bit order of numpy, that begins as an order does."""
    return "little" if order == Lsb0 else "big"


def from_hex(cls: type[Own], text: str, order: Order = Lsb0) -> Own:
    """The bits of bytes, of each of which a text has two hexadecimal digits, in bytes of their own."""
    return cls.from_bytes(bytes.fromhex(text), order)


def to_hex(bits: Bits) -> str:
    """The bytes that to_bytes gives, two hexadecimal digits of each."""
    return bits.to_bytes().hex()


def from_numpy(cls: type[Own], bits: NDArray[Any], order: Order = Lsb0) -> Own:
    """The bits of an array of numpy.bool_, or of numbers that are 0 or 1, in bytes of their own.

    TypeError: it has other elements, or more dimensions; ValueError: it has other numbers.
    """
    import numpy

    bits = numpy.asarray(bits)
    if bits.dtype.kind not in "biu" or bits.ndim != 1:
        raise TypeError(f"an array of {bits.ndim} dimensions of {bits.dtype}, and not one of bool or integers")
    if bits.dtype != bool and ((bits != 0) & (bits != 1)).any():
        raise ValueError("an array that has other numbers than 0 and 1")
    from .bits import restored

    return restored(numpy.packbits(bits.astype(bool, copy=False), bitorder=side(order)).data, len(bits), order, 8, cls)


def to_numpy(bits: Bits) -> NDArray[numpy.bool_]:
    """The bits as an array of numpy.bool_ with a memory of its own."""
    import numpy

    data = numpy.frombuffer(bits.to_bytes(), "u1")
    return numpy.unpackbits(data, count=len(bits), bitorder=side(bits.order)).view(numpy.bool_)


def fours(text: str) -> str:
    """Digits, with a space behind each four."""
    return " ".join(text[place : place + 4] for place in range(0, len(text), 4))


def shown(bits: Bits) -> str:
    """The first bits as digits, how many there are, and what kind of bits they are."""
    more = f" ..', {len(bits)} bits" if len(bits) > 64 else "'"
    return f"{type(bits).__name__}('{fours(str(bits[:64]))}{more}, {bits.order.name}, u{bits.width})"


def table(bits: Bits) -> str:
    """The bits as a table for a notebook: a row for each of the first elements, with the index of its first bit."""
    rows = [
        f"<tr><th>{place}</th><td><code>{fours(str(bits[place : min(place + bits.width, len(bits))]))}</code></td></tr>"
        for place in range(0, min(len(bits), 32 * bits.width), bits.width)
    ]
    more = "<tr><th>..</th><td></td></tr>" if len(rows) * bits.width < len(bits) else ""
    kind = f"{type(bits).__name__}, {len(bits)} bits, {bits.order.name}, u{bits.width}"
    return f"<table><caption>{kind}</caption>{''.join(rows)}{more}</table>"
