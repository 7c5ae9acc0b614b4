"""The names of the package `bitarray` and their meanings, over Bits: `from fehimbary.bitarray import bitarray`.

A `bitarray` is a Bits too, and what takes these takes it. docs/C.md says where it differs from the package.
"""

from .. import __version__
from .arrays import bitarray, bits2bytes, decodetree, frozenbitarray
from .making import _set_default_endian, get_default_endian

__all__ = ["bitarray", "frozenbitarray", "decodetree", "bits2bytes"]

# A pickle, as the text of a type, has the name that a program uses.
for _it in (bitarray, frozenbitarray, decodetree):
    _it.__module__ = __name__
