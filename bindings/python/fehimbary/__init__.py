"""Proved operations on the bits of any memory, as views that write through.

    >>> from fehimbary import Bits, Msb0
    >>> memory = bytearray(2)
    >>> bits = Bits(memory, Msb0)
    >>> bits[3:7] = True
    >>> bits
    Bits('0001 1110 0000 0000', Msb0, u8)

What each method costs is said at the C function of its name (fehimbary.h).
"""

from collections.abc import MutableSequence

from .bits import Bits, FrozenBits, __version__
from .codes import Lsb0, Msb0, Order, ReadOnly, Refused, RefusedIndex, Status
from .runs import Op, Reply, Step

__all__ = ["Bits", "FrozenBits", "Lsb0", "Msb0", "Op", "Order", "ReadOnly", "Refused", "RefusedIndex", "Reply", "Status", "Step"]

MutableSequence.register(Bits)
