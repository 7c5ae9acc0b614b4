"""The classes `bitarray` and `frozenbitarray`."""
# mypy: ignore-errors

import sys
from itertools import chain, islice
from operator import index

from .. import packing
from ..bits import Bits, FrozenBits
from ..prefix import Tree
from .making import NAMES, bit_of, filled, length_of, order_of, several, text_of


class bitarrayiterator(map):
    """The bits in turn, as integers."""


class searchiterator(chain):
    """The places where bits stand, in turn."""


def bits2bytes(n, /):
    """How many bytes so many bits take."""
    if not isinstance(n, int):
        raise TypeError("integer expected")
    if n < 0:
        raise ValueError("non-negative integer expected")
    return (n + 7) // 8


def alike(left, right):
    """Raises ValueError where two bitarrays aren't of one length and endianness."""
    if len(left) != len(right):
        raise ValueError("bitarrays of equal length expected")
    if left.order != right.order:
        raise ValueError("bitarrays of equal endianness expected")


def beside(call):
    """An operator that takes another bitarray that is alike."""

    def operator(self, other):
        if not isinstance(other, Bits):
            return NotImplemented
        alike(self, other)
        return call(self, other)

    return operator


def shift(call):
    """A shift by any number of places."""
    return lambda self, by: call(self, length_of(index(by)))


def needle(item):
    """What is looked for: bits, or a bit."""
    return item if isinstance(item, Bits) else bit_of(item)


def walk(bits, item):
    """The places where bits stand in others, in turn."""
    place = Bits.find(bits, item)
    while place is not None:
        yield place
        place = Bits.find(bits, item, place + 1)


class bitarray(Bits):
    """Bits in bytes of their own, or in a buffer, with the methods of the package `bitarray`."""

    is_padded = True

    def __new__(cls, initializer=None, /, endian=None, buffer=None):
        order = order_of(endian)
        if buffer is None:
            return filled(cls, initializer, order, endian is not None)
        if initializer is not None:
            raise TypeError("buffer requires no initial argument")
        bits = Bits.__new__(cls)
        Bits.__init__(bits, memoryview(buffer).cast("B"), order)
        return bits

    def __init__(self, *_, **__):
        pass

    def __repr__(self):
        return f"bitarray({self.to01()!r})" if self else "bitarray()"

    def __str__(self):
        return repr(self)

    def __iter__(self):
        return bitarrayiterator(int, Bits.__iter__(self))

    def __contains__(self, item):
        return Bits.__contains__(self, needle(item))

    def __getitem__(self, key):
        """The bit at an index, or a copy of a part."""
        found = Bits.__getitem__(self, key)
        if isinstance(found, bool):
            return int(found)
        return found if isinstance(found, bitarray) else Bits.__add__(type(self).zeros(0, self.order), found)

    def __setitem__(self, key, value):
        """Writes a bit to an index or to each place of a part, or puts bits in place of a part."""
        if not isinstance(value, Bits):
            Bits.__setitem__(self, key, bit_of(value))
        elif not isinstance(key, slice):
            Bits.__setitem__(self, key, value if isinstance(key, (Bits, list)) else bit_of(value))
        else:
            self._put(key, value)

    def _put(self, key, bits):
        """Puts bits in place of those of a slice, which may be fewer or more where it has no step."""
        start, stop, step = key.indices(len(self))
        size = len(range(start, stop, step))
        if len(bits) == size:
            Bits.__setitem__(self, key, bits)
        elif step != 1:
            raise ValueError(f"attempt to assign sequence of size {len(bits)} to extended slice of size {size}")
        else:
            both = Bits.zeros(0) + bits + Bits.__getitem__(self, slice(start + size, None))
            Bits.resize(self, start + len(both))
            Bits.__setitem__(self, slice(start, None), both)

    def __add__(self, other):
        return Bits.__add__(self, several(other, self.order))

    def __iadd__(self, other):
        self.extend(other)
        return self

    def __imul__(self, times):
        length_of(len(self) * max(index(times), 0))
        return Bits.__imul__(self, times)

    __and__, __or__, __xor__ = map(beside, (Bits.__and__, Bits.__or__, Bits.__xor__))
    __iand__, __ior__, __ixor__ = map(beside, (Bits.__iand__, Bits.__ior__, Bits.__ixor__))
    __lshift__, __rshift__, __ilshift__, __irshift__ = map(shift, (Bits.__lshift__, Bits.__rshift__, Bits.__ilshift__, Bits.__irshift__))

    def endian(self):
        """The name of the order."""
        return NAMES[self.order]

    @property
    def padbits(self):
        """How many bits of the last byte are past the end."""
        return -len(self) % 8

    def buffer_info(self):
        """As Bits.buffer_info, with the endianness in place of the order."""
        address, size, order, *others = Bits.buffer_info(self)
        return (address, size, NAMES[order], *others)

    def append(self, value, /):
        """Adds a bit."""
        Bits.append(self, bit_of(value))

    def extend(self, items, /):
        """Adds bits. Those that an iterable gave before it failed are added."""
        if isinstance(items, (Bits, str, bytes, bytearray)):
            Bits.extend(self, several(items, self.order))
            return
        values = []
        try:
            values.extend(items)
        finally:
            Bits.extend(self, text_of(values))

    def insert(self, place, value, /):
        """Puts a bit before the one at an index, or behind the last."""
        Bits.insert(self, place, bit_of(value))

    def pop(self, place=-1, /):
        """Takes away the bit at an index, and gives it."""
        return int(Bits.pop(self, place))

    def remove(self, value, /):
        """Takes away the first bit that is so."""
        Bits.remove(self, bit_of(value))

    def setall(self, value, /):
        """Gives each bit the value."""
        Bits.fill(self, bit_of(value))

    def invert(self, place=None, /):
        """Flips each bit, or the one at an index."""
        Bits.invert(self, place)

    def reverse(self):
        """Puts the bits in the opposite order."""
        Bits.reverse(self)

    def sort(self, reverse=False):
        """Puts the zeros before the ones, or behind them."""
        Bits.sort(self, bool(index(reverse)))

    def fill(self):
        """Adds zeros until the bits are whole bytes, and gives how many."""
        missing = self.padbits
        if missing or self.readonly:
            Bits.resize(self, len(self) + missing)
        return missing

    def bytereverse(self, start=0, stop=None, /):
        """Puts the bits of each byte of a range in the opposite order."""
        size = self.nbytes
        for place in (start, size if stop is None else stop):
            if not -size <= index(place) <= size:
                raise IndexError(f"byte {place} of {size}")
        Bits.bytereverse(self, start, stop)

    def count(self, value=1, start=0, stop=None, step=1, /):
        """How many bits of a part are so, or how often bits stand in it one behind the other."""
        return Bits.count(Bits.__getitem__(self, slice(None)), needle(value), start, stop, step)

    def find(self, item, start=0, stop=None, /, *, right=False):
        """The least, or the greatest index of a part from which on bits stand; -1 where there is none."""
        place = (Bits.rfind if right else Bits.find)(self, needle(item), start, stop)
        return -1 if place is None else place

    def index(self, item, start=0, stop=None, /, *, right=False):
        """The same index. ValueError: there is none."""
        place = self.find(item, start, stop, right=right)
        if place < 0:
            raise ValueError(f"{item!r} not in bitarray")
        return place

    def itersearch(self, item, /):
        """The places where bits stand, in turn."""
        item = needle(item)
        if isinstance(item, Bits) and not item:
            raise ValueError("can't search for empty bitarray")
        return searchiterator(walk(self, item))

    def search(self, item, limit=sys.maxsize, /):
        """The first places where bits stand."""
        return list(islice(self.itersearch(item), index(limit)))

    findall = search

    def frombytes(self, data, /):
        """Adds the bits of bytes."""
        Bits.extend(self, memoryview(data).cast("B"))

    def to01(self):
        """The bits as digits."""
        return Bits.__str__(self)

    def tolist(self):
        """The bits as a list of integers."""
        return list(packing.unpack(self))

    tobytes = Bits.to_bytes


class frozenbitarray(FrozenBits, bitarray):
    """A bitarray that can't be written, and so has a hash."""

    __init__ = bitarray.__init__

    def __new__(cls, initializer=None, /, endian=None, buffer=None):
        """As of a bitarray. A buffer, which may only be read, is copied, since a hash has to stay."""
        given = initializer if buffer is None else bitarray(initializer, endian, buffer)
        if buffer is not None and not given.readonly:
            raise TypeError("cannot import writable buffer into frozenbitarray")
        return bitarray.__new__(cls, given, endian)

    def __repr__(self):
        return "frozen" + bitarray.__repr__(self)


class decodetree(Tree):
    """A prefix code to decode with more than once."""

    __slots__ = ()

    def todict(self):
        """The bits of each symbol."""
        return {symbol: bitarray(text) for symbol, text in self.texts.items()}
