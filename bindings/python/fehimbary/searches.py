"""Methods of Bits that go by others: where bits stand, and which are some of which."""

from __future__ import annotations

from typing import TYPE_CHECKING, SupportsIndex, Union

if TYPE_CHECKING:
    from .bits import Bit, Bits, Several

    Item = Union[Bit, Several]


def index(bits: Bits, item: Item, start: SupportsIndex = 0, stop: SupportsIndex | None = None) -> int:
    """The least such index in a part. ValueError: there is none."""
    place = bits.find(item, start, stop)
    if place is None:
        raise ValueError(f"{item!r} isn't there")
    return place


def issuperset(bits: Bits, right: Bits) -> bool:
    """Whether each 1 of the right bits is one of these too."""
    return right.issubset(bits)
