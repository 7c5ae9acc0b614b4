"""Bits by a mask or a list of indices: what `bits[key]` is, where the key is one of these."""

from __future__ import annotations

from itertools import compress
from operator import index as number_of
from typing import TYPE_CHECKING, SupportsIndex, Union

from .codes import Refused, RefusedIndex, Status
from .packing import digits

if TYPE_CHECKING:
    from .bits import Bit, Bits, Several

    Key = Union[Bits, list[SupportsIndex]]


def indices(bits: Bits, key: list[SupportsIndex]) -> list[int]:
    """The places of indices, which count from the end where they are below 0."""
    length, found = len(bits), []
    for index in key:
        if isinstance(index, bool):
            raise TypeError("a list of bool is no list of indices: Bits makes a mask of it")
        place = number_of(index)
        if not -length <= place < length:
            raise RefusedIndex(Status.INDEX, f"{place} of {length} bits")
        found.append(place % length)
    return found


def mask_of(bits: Bits, key: Key) -> Bits:
    """A mask, which has as many bits; a 1 in it selects. Of indices it is made."""
    from .bits import Bits

    if isinstance(key, Bits):
        if len(key) != len(bits):
            raise Refused(Status.LENGTH, f"a mask of {len(key)} bits for {len(bits)}")
        return key
    mask = Bits.zeros(len(bits))
    for place in indices(bits, key):
        mask[place] = True
    return mask


def selected(bits: Bits, key: Key) -> Bits:
    """The bits that a key selects, in bytes of their own: by a mask in their turn, and else in that of the indices."""
    if isinstance(key, list):
        return type(bits).from_bools([bits[place] for place in indices(bits, key)], bits.order)
    return type(bits).from_string("".join(compress(digits(bits), mask_of(bits, key))), bits.order)


def assign(bits: Bits, key: Key, value: Bit | Several) -> None:
    """Writes a bit to each place that a key selects, or as many bits to them. Refused: lengths."""
    from .bits import Bits

    if not isinstance(value, (Bits, str, bytes, bytearray, memoryview)) and not hasattr(value, "__iter__"):
        mask = mask_of(bits, key)
        Bits.__ior__(bits, mask) if Bits.from_bools([value])[0] else Bits.__iand__(bits, ~mask)
        return
    values = Bits.zeros(0, bits.order) + value
    places = indices(bits, key) if isinstance(key, list) else mask_of(bits, key).ones()
    if len(values) != len(places):
        raise Refused(Status.LENGTH, f"{len(values)} bits for {len(places)}")
    for place, bit in zip(places, values):
        Bits.__setitem__(bits, place, bit)


def remove(bits: Bits, key: Key) -> None:
    """Takes away the bits that a key selects."""
    from .bits import Bits

    mask = mask_of(bits, key)
    rest = "".join(compress(digits(bits), ~mask))
    Bits.__delitem__(bits, slice(len(rest), None))
    Bits.__setitem__(bits, slice(None), rest)
