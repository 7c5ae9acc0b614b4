"""Runs: commands on the bits of a view, carried out one after the other."""

import ctypes
from ctypes import c_uint32, c_uint64
from enum import IntEnum


def whole(number: int, bits: int = 64) -> int:
    """A number as C has it; ctypes would take a greater one by its last bits."""
    if not 0 <= number < 1 << bits:
        raise OverflowError(f"{number} isn't a number of {bits} bits")
    return number


class Op(IntEnum):
    """The command of a step: as FB_GET and its kin."""

    (GET, SET, REPLACE, SWAP_BITS, FILL, INVERT, REVERSE, SHIFT_START, SHIFT_END, ROTATE_LEFT, ROTATE_RIGHT, COPY_WITHIN, COPY,
     AND, OR, XOR, EQUAL, COMPARE, STARTS_WITH, ENDS_WITH, CONTAINS, COUNT_ONES, COUNT_ZEROS, FIRST_ONE, FIRST_ZERO, LAST_ONE,
     LAST_ZERO, ANY, ALL, LOAD_LE, LOAD_BE, STORE_LE, STORE_BE) = range(33)


class Step(ctypes.Structure):
    """A command on the bits `start` up to, without, `stop` of the view. OverflowError: a number that C would cut."""

    _fields_ = [*((name, c_uint64) for name in ("start", "stop", "first", "second", "third")), ("op", c_uint32), ("bit", c_uint32)]

    def __init__(self, op: int, start: int, stop: int, first: int = 0, second: int = 0, third: int = 0, bit: int = 0) -> None:
        super().__init__(*map(whole, (start, stop, first, second, third)), whole(op, 32), whole(bit, 32))


class Reply(ctypes.Structure):
    """What a step answers: `low` and `high`, the kind of answer, and the status."""

    _fields_ = [("low", c_uint64), ("high", c_uint64), ("kind", c_uint32), ("status", c_uint32)]
