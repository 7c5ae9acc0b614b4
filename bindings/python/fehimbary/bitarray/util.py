"""The functions of `bitarray.util`."""

import pprint as printing
import sys
from functools import partial, wraps
from operator import index

from .. import util
from ..bits import Bits
from .arrays import alike, bitarray, needle
from .huffman import canonical_decode, canonical_huffman, huffman_code
from .making import bit_of, checked, length_of, order_of
from .streams import sc_decode, sc_encode, vl_decode, vl_encode

__all__ = ["zeros", "ones", "urandom", "random_k", "gen_primes", "pprint", "make_endian", "rindex", "strip", "count_n", "parity",
           "count_and", "count_or", "count_xor", "any_and", "subset", "correspond_all", "intervals", "sum_indices", "xor_indices",
           "ba2hex", "hex2ba", "ba2base", "base2ba", "ba2int", "int2ba", "serialize", "deserialize", "sc_encode", "sc_decode",
           "vl_encode", "vl_decode", "huffman_code", "canonical_huffman", "canonical_decode"]  # fmt: skip


def of_bits(call):
    """A function whose first argument is a bitarray."""

    @wraps(call)
    def function(a, /, *others, **named):
        return call(checked(a), *others, **named)

    return function


def of_two(call):
    """A function of two bitarrays of one length and endianness."""

    @wraps(call)
    def function(a, b, /):
        alike(checked(a), checked(b))
        return call(a, b)

    return function


def of_length(call):
    """A function that makes a bitarray of so many bits."""

    @wraps(call)
    def function(length, /, endian=None):
        made = call(length_of(index(length)), order_of(endian))
        return made if isinstance(made, bitarray) else bitarray(made)

    return function


@of_two
def any_and(a, b):
    """Whether some bit is 1 in both."""
    return not a.isdisjoint(b)


@of_two
def correspond_all(a, b):
    """How many bits are 0 in both, only 1 in the second, only 1 in the first, and 1 in both."""
    both = a.count_and(b)
    left, right = a.count_ones() - both, b.count_ones() - both
    return len(a) - left - right - both, right, left, both


_correspond_all = correspond_all
zeros, ones, urandom = map(of_length, (bitarray.zeros, util.ones, util.urandom))
parity, intervals, sum_indices, xor_indices = map(of_bits, (util.parity, util.intervals, util.sum_indices, util.xor_indices))
serialize = of_bits(util.serialize)
count_and, count_or, count_xor, subset = map(of_two, (Bits.count_and, util.count_or, Bits.count_xor, Bits.issubset))


def random_k(length, /, k, endian=None):
    """So many bits, of which k at random places are 1."""
    return bitarray(util.random_k(length_of(index(length)), index(k), order_of(endian)))


def gen_primes(length, /, endian=None, odd=False):
    """So many bits, of which those at primes are 1; or with `odd` the one at each index i where 2 i + 1 is prime."""
    return bitarray(util.gen_primes(length_of(index(length)), order_of(endian), odd))


def pprint(a, stream=None, group=8, indent=4, width=80):
    """Prints a bitarray in lines that Python reads, and others as the module pprint does."""
    if not isinstance(a, bitarray):
        printing.pprint(a, stream=stream, indent=indent, width=width)
        return
    text = util.literal(a.to01(), group, indent, width) if a else ""
    print(f"{type(a).__name__}({text})", file=stream or sys.stdout)


def make_endian(a, /, endian):
    """The same bits with an endianness: itself, or a copy."""
    return a if checked(a).order == order_of(endian) else bitarray(a, endian)


def rindex(a, value=1, start=0, stop=None, /):
    """The greatest index of a part at which a bit is so."""
    place = Bits.rfind(checked(a), needle(value), start, stop)
    if place is None:
        raise ValueError(f"{value!r} not in bitarray")
    return place


def strip(a, /, mode="right"):
    """A copy without the zeros at its `right` or `left` end, or `both`."""
    if not isinstance(mode, str):
        raise TypeError(f"str expected for mode, got {type(mode).__name__}")
    return util.strip(checked(a), mode)


def count_n(a, n, value=1, /):
    """The lowest index up to which n bits are so."""
    checked(a)
    if index(n) < 0:
        raise ValueError("non-negative integer expected")
    if n > len(a):
        raise ValueError(f"n = {n} larger than bitarray size (len(a) = {len(a)})")
    total = a.count(bit_of(value))
    if n > total:
        raise ValueError(f"n = {n} exceeds total count (a.count({int(value)}) = {total})")
    return util.count_n(a, n, value)


def ba2base(n, a, /):
    """The digits of bits in a base."""
    return util.ba2base(index(n), checked(a))


def base2ba(n, text, /, endian=None):
    """The bits of digits in a base."""
    if isinstance(text, str):
        text = text.encode("ascii")
    if not isinstance(text, bytes):
        raise TypeError(f"str or bytes expected, got {type(text).__name__}")
    return bitarray(util.base2ba(index(n), text.decode("latin-1"), order_of(endian)))


ba2hex, hex2ba = partial(ba2base, 16), partial(base2ba, 16)


def ba2int(a, /, signed=False):
    """The number whose digits the bits are."""
    if not checked(a):
        raise ValueError("non-empty bitarray expected")
    number = Bits.to_int(a)
    return number - (1 << len(a)) if signed and number >> len(a) - 1 else number


def int2ba(number, /, length=None, endian=None, signed=False):
    """The bits of a number, in so many, or as many as it needs."""
    if not isinstance(number, int):
        raise TypeError(f"int expected, got {type(number).__name__}")
    if length is None:
        if signed:
            raise TypeError("signed requires length")
        length = max(number.bit_length(), 1)
    size = index(length)
    if size <= 0:
        raise ValueError("length must be > 0")
    least, above = (-(1 << size - 1), 1 << size - 1) if signed else (0, 1 << size)
    if not least <= number < above:
        raise OverflowError(f"{'signed' if signed else 'unsigned'} integer not in range({least}, {above}), got {number}")
    return bitarray(Bits.from_int(number % (1 << size), size, order_of(endian)))


def deserialize(data, /):
    """The bitarray of what serialize gives."""
    return bitarray(util.deserialize(memoryview(data)))
