# cython: language_level=3, embedsignature=True, autotestdict=False
"""Views of the bits of a memory, by calls of the C functions.

Code that a call runs, as an `__index__`, an iterator, a finalizer or another thread, must find no bits that the call has begun
to read. So a method turns its arguments into numbers and bits first. `held` then counts a view on each operand, which keeps
them where they are, and carries the call out. Bits that a call makes count a view until they are handed out. Calls that change
a length look at no operand until no code runs any more.
"""

cimport cython
from cpython.array cimport array, clone
from cpython.buffer cimport PyBUF_SIMPLE, PyBuffer_FillInfo, PyBuffer_IsContiguous, PyBuffer_Release, PyObject_CheckBuffer, PyObject_GetBuffer
from cpython.bytes cimport PyBytes_AS_STRING, PyBytes_FromStringAndSize
from cpython.exc cimport PyErr_CheckSignals
from cpython.list cimport PyList_New, PyList_SET_ITEM
from cpython.mem cimport PyMem_Free, PyMem_Malloc, PyMem_Realloc
from cpython.memoryview cimport PyMemoryView_FromObject, PyMemoryView_GET_BUFFER
from cpython.number cimport PyNumber_Index
from cpython.object cimport Py_EQ, Py_GE, Py_LE, Py_LT, Py_NE, PyObject, PyTypeObject, destructor
from cpython.ref cimport Py_DECREF, Py_INCREF
from libc.stdint cimport int32_t, int64_t, uint8_t, uint32_t, uint64_t, uintptr_t
from libc.string cimport memcpy, memset

import copyreg
import sys
from ctypes import addressof

from . import conversions, packing, prefix, searches, selections
from .codes import Lsb0, Msb0, Order, ReadOnly, Refused, RefusedIndex, Status
from .runs import Reply, Step

cdef extern from "Python.h":
    PyObject *Py_False
    PyObject *Py_True
    Py_ssize_t Py_REFCNT(PyObject *object)
    PyTypeObject *Py_TYPE(PyObject *object)
    PyObject **PyObject_GET_WEAKREFS_LISTPTR(PyObject *object)
    PyObject *PyObject_Init(PyObject *object, PyTypeObject *kind)
    void PyObject_GC_Track(PyObject *object)
    void PyObject_GC_UnTrack(PyObject *object)
    Py_ssize_t PyNumber_AsSsize_t(object number, void *error) except? -1
    int PySlice_Unpack(object key, Py_ssize_t *start, Py_ssize_t *stop, Py_ssize_t *step) except -1
    Py_ssize_t PySlice_AdjustIndices(Py_ssize_t length, Py_ssize_t *start, Py_ssize_t *stop, Py_ssize_t step)
    str PyUnicode_FromObject(object text)
    str PyUnicode_New(Py_ssize_t length, Py_UCS4 most)
    int PyUnicode_READY(str text) except -1
    bint PyUnicode_IS_ASCII(str text)
    void *PyUnicode_DATA(str text)
    Py_ssize_t PyUnicode_GET_LENGTH(str text)

cdef extern from "calls.h":
    enum: FB_LSB0, FB_MSB0, FB_NONE, FB_LENGTH
    const char *FEHIMBARY_VERSION
    ctypedef uint32_t fb_status
    ctypedef struct fb_window:
        void *elements
        size_t count, start, len
        uint32_t order
        unsigned shift
    ctypedef const fb_window *Window "fb_seen"
    ctypedef fb_status (*Call "fb_call")(Window, Window, uint64_t *) nogil
    fb_window fb_part(Window, size_t start, size_t len) nogil
    size_t fb_size(Window) nogil
    bint fb_overlap(Window, Window) nogil
    bint fb_meet(Window, Window) nogil
    bint fb_alike(Window, Window) nogil
    bint fb_peek(Window, size_t) nogil
    void fb_poke(Window, size_t, bint) nogil
    ctypedef void (*Few "fb_few")(uint64_t *, Window, Window) nogil
    bint fb_are_few(Window, Window) nogil
    Few fb_few_and, fb_few_or, fb_few_xor, fb_few_not, fb_few_copy
    bint fb_is_bytewise(Window) nogil
    Call fb_carry, fb_same, fb_invert, fb_reverse, fb_fill, fb_flood, fb_fill_step, fb_copy, fb_copy_step, fb_copy_within, fb_swap, fb_swap_bits
    Call fb_shift_start, fb_shift_end, fb_rotate_left, fb_rotate_right, fb_and, fb_or, fb_xor, fb_run
    Call fb_any, fb_all, fb_count_ones, fb_count_zeros, fb_count_step, fb_first_one, fb_first_zero, fb_last_one, fb_last_zero, fb_ones
    Call fb_starts_with, fb_ends_with, fb_contains, fb_disjoint, fb_within, fb_compare, fb_count_and, fb_count_xor
    Call fb_load_le, fb_load_be, fb_store_le, fb_store_be

cdef extern from "digits.h":
    bint fb_are_digits(const uint8_t *, size_t) nogil
    Call fb_read_digits, fb_write_digits

# What a method does once its operands stay where they are.
ctypedef object (*Entry)(Bits left, Bits right, Call call, uint64_t *numbers)

__version__ = FEHIMBARY_VERSION.decode()
cdef object LSB0 = Lsb0, MSB0 = Msb0
cdef array INDICES = array("Q" if sizeof(size_t) == 8 else "I")
cdef size_t MOST_BITS = <size_t>-1 // 8
cdef bytes TURNED = bytes(int(f"{byte:08b}"[::-1], 2) for byte in range(256))  # the bits of each byte in the opposite order
cdef PyObject *BITS[2]  # what a bit is in Python, which a table gives without a branch
BITS[0], BITS[1] = Py_False, Py_True
cdef enum: LONG = 1 << 16  # bits of a call that gives the interpreter's lock back


@cython.no_gc_clear
cdef class Walk:
    """The bits of a view in turn."""

    cdef Bits bits
    cdef size_t index

    def __cinit__(self, Bits bits not None):
        self.bits = bits

    def __iter__(self):
        return self

    def __next__(self):
        if self.index >= self.bits.window.len:
            raise StopIteration
        self.index += 1
        return <object>BITS[fb_peek(&self.bits.window, self.index - 1)]


@cython.freelist(64)
@cython.no_gc_clear
cdef class Bits:
    """The bits of a memory, or a part of them, as a view that writes through; or bits with a memory of their own, which may grow.

    The memory is any contiguous buffer of unsigned integers of 8 to 64 bits, as of bytes, bytearray, array, memoryview, mmap or
    numpy, which can't change its length while it has views. It stays, even where a memoryview of it is released meanwhile. Its
    bits are numbered element by element, in each as the order says. A view of whole elements is a buffer of their bytes itself;
    `bytes` and `to_bytes` give eight bits a byte in the view's order.
    Views are compared by their bits, as words in a dictionary, whatever their orders and elements; they have no hash. Operators and
    parts with a step give bits with a memory of their own. Of the right operand of `&`, `|` and `^` bits past its end count as 0,
    and further ones as none. Right bits of another order or element, or of elements that are written, are copied first. What is
    added, assigned or looked for may also be a text, bytes or an iterable.

    A write to memory that can only be read raises ReadOnly, another length for bits that have views or another's memory BufferError,
    an index that isn't there RefusedIndex, which is an IndexError, a bit that is neither 0 nor 1 ValueError, a number below 0 or of
    more than 64 bits OverflowError. Methods name what else they raise.

    >>> bits = Bits.from_string("0010 1100 01")
    >>> bits.find("11"), bits.ones(), ~bits >> 2, bits[::3]
    (4, [2, 4, 5, 9], Bits('0011 0100 11', Lsb0, u8), Bits('0001', Lsb0, u8))
    """

    cdef object __weakref__
    cdef fb_window window
    cdef object held  # of the bits that were made of a memory: a memoryview of it, since the collector may clear one that is exported
    cdef Bits keeper  # of a part: the bits that have the memory
    cdef bint fixed  # the memory can't be written
    cdef bint padded  # their buffers have the whole last byte
    cdef bint filled  # of FrozenBits: they have their bits
    cdef Py_hash_t hashed  # of FrozenBits: their hash, or 0 before it is asked for
    cdef size_t views  # of parts, buffers and calls, while which bits stay where they are
    cdef uint64_t[8] room  # the elements of bits that have a memory of their own, or else these are in the block, of so many words
    cdef uint64_t *block
    cdef size_t words

    def __cinit__(self):
        self.window = fb_window(self.room, 0, 0, 0, FB_LSB0, 3)

    def __init__(self, memory, order=Lsb0):
        """All bits of a memory; or so many zeros, or the bits of a text or an iterable, in bytes of their own.

        TypeError: a memory isn't as above; ValueError: it isn't aligned; BufferError: bits inside an element.
        """
        cdef uint32_t number = order_of(order)
        if isinstance(memory, Bits):
            whole_elements(memory)
            settle_beside(self, memory, number)
            return
        if isinstance(memory, (str, int)) or not PyObject_CheckBuffer(memory):
            grown(self, given_of(memory, number), number)
            return
        settle(self, PyMemoryView_FromObject(memory), number)

    def __dealloc__(self):
        if self.keeper is not None:
            self.keeper.views -= 1
        PyMem_Free(self.block)
        if self.held is not None:
            let_go(self)

    @classmethod
    def zeros(cls, length, order=Lsb0):
        """So many zeros, in bytes of their own."""
        cdef size_t size = whole(length)
        cdef uint32_t number = order_of(order)
        cdef uint64_t bit = 0
        cdef Bits bits = blank(cls)
        sized(bits, size, number, 3)
        return finished(bits, work(&bits.window, &bits.window, fb_fill, &bit))

    @classmethod
    def from_string(cls, text, order=Lsb0):
        """The bits of a text of 0 and 1, in bytes of their own; white space is passed over. ValueError: another character."""
        return finished(of_text(cls, text, order_of(order)), 0)

    @classmethod
    def from_bools(cls, bits, order=Lsb0):
        """The bits that an iterable has, in bytes of their own."""
        return finished(of_bools(cls, bits, order_of(order)), 0)

    @classmethod
    def from_bytes(cls, data, order=Lsb0):
        """The bits of bytes, in bytes of their own."""
        return finished(of_bytes(cls, data, <size_t>-1, order_of(order), 3), 0)

    @classmethod
    def from_int(cls, number, length, order=Lsb0):
        """A number of any size, in bytes of their own, as to_int reads it. OverflowError: it takes more bits, or is below 0."""
        value, size, first = PyNumber_Index(number), PyNumber_Index(length), order_of(order)
        if value < 0 or size < 0 or value.bit_length() > size:
            raise OverflowError(f"{value} isn't a number of {size} bits")
        data = (value if first == FB_LSB0 else value << -size % 8).to_bytes(-(size // -8), "little" if first == FB_LSB0 else "big")
        return finished(of_bytes(cls, data, size, first, 3), 0)

    from_hex, from_numpy = classmethod(conversions.from_hex), classmethod(conversions.from_numpy)
    hex, to_numpy, _repr_html_ = conversions.to_hex, conversions.to_numpy, conversions.table

    def __array__(self, *_, **__):
        raise TypeError("bits that begin or end inside an element are no array of elements: to_numpy gives one of bool")

    def to_int(self):
        """The number whose digits the bits are: under Lsb0 the first is the lowest one, and under Msb0 the last."""
        return held(as_number, self, self, NULL, NULL)

    def tolist(self):
        """The bits as a list of bool."""
        return held(as_list, self, self, NULL, NULL)

    def to_bytes(self):
        """The bits, eight a byte in the view's order, and zeros behind them."""
        if self.window.start == 0 and self.window.len < LONG and fb_is_bytewise(&self.window):
            return first_bytes(self.window.elements, self.window.len, self.window.order)
        return held(as_bytes, self, self, NULL, NULL)

    def copy(self):
        """The bits in a memory of their own."""
        return few(self, self, fb_few_copy, as_copy, NULL)

    def __reduce__(self):
        data = self.to_bytes(), len(self), int(self.window.order)
        if type(self) is Bits:
            return restored, data if self.window.shift == 3 else (*data, 1 << self.window.shift)
        slots = {name: getattr(self, name) for name in copyreg._slotnames(type(self)) if hasattr(self, name)}
        state = getattr(self, "__dict__", None)
        return restored, (*data, 1 << self.window.shift, type(self)), (state, slots) if slots else state

    @property
    def order(self):
        """Which bit of an element comes first."""
        return LSB0 if self.window.order == FB_LSB0 else MSB0

    @property
    def width(self):
        """How many bits an element has."""
        return 1 << self.window.shift

    @property
    def readonly(self):
        """Whether the memory can only be read."""
        return self.fixed

    @property
    def nbytes(self):
        """How many bytes the elements have that the bits touch."""
        return fb_size(&self.window)

    def buffer_info(self):
        """The address, bytes, order, missing bits of the last byte, bytes allocated, readonly, whether it's others' memory, views."""
        cdef bint others = self.held is not None or self.keeper is not None
        return (<uintptr_t>self.window.elements, fb_size(&self.window), self.order, -<Py_ssize_t>self.window.len % 8,
                0 if others else 8 * max(self.words, 8), self.readonly, others, self.views)

    def __sizeof__(self):
        return object.__sizeof__(self) + 8 * self.words

    def __len__(self):
        return self.window.len

    def __getitem__(self, key):
        """The bit at an index, a part as a view, or a copy of one with a step, or of what a mask or a list of indices selects."""
        cdef uint64_t[4] numbers
        if not isinstance(key, slice):
            return selections.selected(self, key) if selects(key) else fb_peek(&self.window, index_of(self, key))
        if unpacked(key, numbers) == 1:
            return part_of(self, numbers)
        return held(every, self, self, NULL, numbers)

    def __setitem__(self, key, value):
        """Writes a bit at an index or to each place that a slice, a mask or a list of indices names, or as many bits to these.

        Refused: lengths.
        """
        cdef uint64_t[4] numbers
        cdef size_t place
        cdef Bits right
        if selects(key):
            selections.assign(self, key, value)
        elif not isinstance(key, slice):
            numbers[3] = bit_of(value)
            place = index_of(self, key)
            fb_poke(written(self), place, numbers[3])
        elif is_bits(value):
            right = bits_of(value, self.window.order)
            unpacked(key, numbers)
            held(assigned, self, right, NULL, numbers)
        else:
            numbers[3] = bit_of(value)
            unpacked(key, numbers)
            if self.window.len < LONG:
                filled(self, self, NULL, numbers)
            else:
                held(filled, self, self, NULL, numbers)

    def __delitem__(self, key):
        """Takes away the bit at an index, or those that a slice, a mask or a list of indices names."""
        cdef uint64_t[4] numbers
        cdef size_t start, length
        cdef Py_ssize_t step
        if selects(key):
            selections.remove(self, key)
            return
        if not isinstance(key, slice):
            taken(self, index_of(self, key), 1, 1, 1)
            return
        unpacked(key, numbers)
        step = abs(cut(self, numbers, &start, &length))
        if step == 1:
            taken(self, start, length, length, min(length, 1))
        else:
            taken(self, start, step, 1, length)

    def append(self, bit):
        """Adds a bit behind the last."""
        cdef bint value = bit_of(bit)
        resized(self, self.window.len + 1)
        if value:
            fb_poke(&self.window, self.window.len - 1, True)

    def extend(self, bits):
        """Adds bits behind the last."""
        cdef Bits right
        cdef uint64_t length
        if isinstance(bits, str):
            spell_behind(self, digits_of(bits))
            return
        right = bits if isinstance(bits, Bits) else bits_of(bits, self.window.order)
        if right is self:
            right = held(as_copy, self, self, NULL, NULL)
        length = self.window.len
        resized(self, length + right.window.len)
        if right.window.len < LONG:
            put(&self.window, length, right)
        else:
            held_by(put_behind, self, right, NULL, length)

    def insert(self, index, bit):
        """Puts a bit before the one at an index, or behind the last."""
        cdef Py_ssize_t place = PyNumber_AsSsize_t(index, NULL), length
        cdef bint value = bit_of(bit)
        cdef uint64_t[3] numbers
        length = self.window.len
        place = max(place + length, 0) if place < 0 else min(place, length)
        resized(self, length + 1)
        numbers = [place, length, place + 1]
        done(fb_copy_within(&self.window, &self.window, numbers))
        fb_poke(&self.window, place, value)

    def pop(self, index=-1):
        """Takes away the bit at an index, and gives it."""
        cdef size_t place = index_of(self, index)
        cdef bint bit = fb_peek(&self.window, place)
        if place + 1 == self.window.len:
            resized(self, place)
        else:
            taken(self, place, 1, 1, 1)
        return bit

    def clear(self):
        """Takes away all bits."""
        resized(self, 0)

    def resize(self, length, bit=False):
        """Takes away the last bits, or adds the bit so often that there are as many."""
        cdef size_t size = whole(length), old
        cdef uint64_t value = bit_of(bit)
        cdef fb_window rest
        old = min(size, self.window.len)
        resized(self, size)
        rest = fb_part(&self.window, old, size - old)
        if value:
            done(fb_fill(&rest, &rest, &value))

    def __add__(left, right):
        if not isinstance(left, Bits):
            return NotImplemented
        return held(joined, left, bits_of(right, (<Bits>left).window.order), NULL, NULL)

    def __iadd__(self, right):
        self.extend(right)
        return self

    def __mul__(left, right):
        cdef Bits bits = left if isinstance(left, Bits) else right
        cdef uint64_t times = times_of(right if bits is left else left)
        return held_by(multiplied, bits, bits, NULL, times)

    def __rmul__(self, times):
        return self * times

    def __imul__(self, times):
        cdef uint64_t number = times_of(times)
        cdef uint64_t there = self.window.len
        resized(self, product(there, number))
        return held_by(repeated, self, self, NULL, there)

    def __iter__(self):
        """The bits, each as it is when its turn comes."""
        return Walk(self)

    def __contains__(self, item):
        """Whether a bit is there, or whether bits stand together somewhere."""
        cdef uint64_t[4] numbers
        if is_bits(item):
            return found(self, bits_of(item, self.window.order), 0, None, False) is not None
        if item == 1:
            return held(asked, self, self, fb_any, NULL)
        return bool(item == 0) and not held(asked, self, self, fb_all, NULL)

    def __richcmp__(self, right, int operation):
        return compared_with(self, right, operation)

    def __repr__(self):
        return conversions.shown(self)

    def __str__(self):
        """The bits as digits."""
        return held(as_digits, self, self, NULL, NULL)

    def __bytes__(self):
        return self.to_bytes()

    def __getbuffer__(self, Py_buffer *buffer, int flags):
        """The bytes of the elements. BufferError: an element has other bits too, or a write to what can only be read."""
        self.padded = is_padded(self)
        if not self.padded:
            whole_elements(self)
        PyBuffer_FillInfo(buffer, self, self.window.elements, fb_size(&self.window), self.fixed, flags)
        Py_DECREF(None)  # which Cython had put into the buffer
        self.views += 1

    def __releasebuffer__(self, Py_buffer *buffer):
        self.views -= 1
        if self.padded and not self.fixed:  # no attribute is asked for, since an exception may be on its way
            clear_behind(self)

    def __iand__(self, right): return self if are_combined(self, right, fb_few_and) else between(edited_beside, self, right, fb_and)
    def __ior__(self, right): return self if are_combined(self, right, fb_few_or) else between(edited_beside, self, right, fb_or)
    def __ixor__(self, right): return self if are_combined(self, right, fb_few_xor) else between(edited_beside, self, right, fb_xor)
    def __and__(left, right): return few(left, right, fb_few_and, combined, fb_and)
    def __or__(left, right): return few(left, right, fb_few_or, combined, fb_or)
    def __xor__(left, right): return few(left, right, fb_few_xor, combined, fb_xor)
    def __invert__(self): return few(self, self, fb_few_not, remade, fb_invert)
    def __ilshift__(self, by): return shifted(edited, self, by, fb_shift_start)
    def __irshift__(self, by): return shifted(edited, self, by, fb_shift_end)
    def __lshift__(left, by): return shifted(remade, left, by, fb_shift_start)
    def __rshift__(left, by): return shifted(remade, left, by, fb_shift_end)

    def fill(self, bit):
        """Gives each bit the value."""
        cdef uint64_t number = bit_of(bit)
        return held_by(edited, self, self, fb_fill, number)

    def invert(self, index=None):
        """Flips each bit, or the one at an index, or those of a part."""
        if index is None:
            return held(edited, self, self, fb_invert, NULL)
        if isinstance(index, slice):
            self[index] = ~self[index]
        else:
            place = PyNumber_Index(index)
            self[place] = not self[place]
        return self

    def reverse(self):
        """Puts the bits in the opposite order."""
        return held(edited, self, self, fb_reverse, NULL)

    def sort(self, reverse=False):
        """Puts the zeros before the ones, or behind them."""
        cdef bint first = reverse
        border = self.count_ones() if first else self.count_zeros()
        self[:border] = first
        self[border:] = not first
        return self

    def bytereverse(self, start=0, stop=None):
        """Puts each eight bits, from byte `start` up to, without, `stop`, in the opposite order; bits past the last are 0."""
        first, last, _ = slice(start, stop).indices((len(self) + 7) // 8)
        data = self.to_bytes()[first:last].translate(TURNED)
        size = min(8 * len(data), len(self) - 8 * first)
        if size > 0:
            self[8 * first : 8 * first + size] = Bits.from_bytes(data, self.order)[:size]
        return self

    def remove(self, bit):
        """Takes away the first bit that is so. ValueError: there is none."""
        del self[self.index(bit)]

    def rotate_left(self, by):
        """Moves the first `by` bits behind the others. Refused: there are fewer."""
        cdef uint64_t number = whole(by)
        return held_by(edited, self, self, fb_rotate_left, number)

    def rotate_right(self, by):
        """Moves the last `by` bits before the others. Refused: there are fewer."""
        cdef uint64_t number = whole(by)
        return held_by(edited, self, self, fb_rotate_right, number)

    def replace(self, index, bit):
        """Writes the bit at an index, and gives the old one."""
        cdef bint value = bit_of(bit), old
        cdef size_t place = index_of(self, index)
        written(self)
        old = fb_peek(&self.window, place)
        fb_poke(&self.window, place, value)
        return old

    def swap_bits(self, first, second):
        """Exchanges the bits at two indices."""
        cdef Py_ssize_t one = PyNumber_AsSsize_t(first, NULL), other = PyNumber_AsSsize_t(second, NULL)
        cdef uint64_t[4] numbers
        numbers = [place_of(self, one, first), place_of(self, other, second), 0, 0]
        return held(edited, self, self, fb_swap_bits, numbers)

    def copy_within(self, start, stop, dest):
        """Copies the bits `start` up to, without, `stop` to those from `dest` on. Refused: these or those aren't there."""
        cdef uint64_t[4] numbers
        numbers = [whole(start), whole(stop), whole(dest), 0]
        return held(edited, self, self, fb_copy_within, numbers)

    def copy_from(self, Bits right not None):
        """Copies the right bits. Refused: they aren't as many."""
        return held(edited_alike, self, right, fb_copy, NULL)

    def swap(self, Bits right not None):
        """Exchanges the bits with the right ones. Refused: they aren't as many; ValueError: some are of both, or of other kinds."""
        return held(swapped, self, right, fb_swap, NULL)

    def run(self, Bits right not None, steps):
        """Carries out steps with right windows of all of the right memory, and gives replies. ValueError: this memory, or others."""
        cdef uint64_t[4] numbers
        steps = tuple(steps)
        commands, replies = (Step * len(steps))(*steps), (Reply * len(steps))()
        numbers = [<uintptr_t>addressof(commands), len(steps), <uintptr_t>addressof(replies), 0]
        held(ran, self, right, fb_run, numbers)
        return list(replies)

    def count_ones(self):
        """How many bits are 1."""
        return held(told, self, self, fb_count_ones, NULL)

    def count_zeros(self):
        """How many bits are 0."""
        return held(told, self, self, fb_count_zeros, NULL)

    def count(self, item=True, start=0, stop=None, step=1):
        """How many bits of a part are so, or how often bits stand in it one behind the other; these without a step."""
        cdef uint64_t[4] numbers
        cdef Bits needle = None
        if is_bits(item):
            needle = bits_of(item, self.window.order)
        else:
            numbers[3] = bit_of(item)
        unpacked(slice(start, stop, step), numbers)
        return held(counted, self, self, NULL, numbers) if needle is None else len(held(apart, self, needle, NULL, numbers))

    pack, unpack, tofile, fromfile = packing.pack, packing.unpack, packing.tofile, packing.fromfile
    encode, decode, iterdecode = prefix.encode, prefix.decode, prefix.iterdecode
    index, issuperset = searches.index, searches.issuperset

    def count_and(self, Bits right not None):
        """How many bits are 1 where the right ones are."""
        return held(told, self, right, fb_count_and, NULL)

    def count_xor(self, Bits right not None):
        """How many bits differ from the right ones, which are 0 past their end."""
        return held(told, self, right, fb_count_xor, NULL)

    def isdisjoint(self, Bits right not None):
        """Whether no bit is 1 where the right one is."""
        return held(asked, self, right, fb_disjoint, NULL)

    def issubset(self, Bits right not None):
        """Whether each 1 is one of the right bits too."""
        return held(asked, self, right, fb_within, NULL)

    def first_one(self):
        """The least index of a 1, if there is one."""
        return held(told, self, self, fb_first_one, NULL)

    def first_zero(self):
        """The least index of a 0, if there is one."""
        return held(told, self, self, fb_first_zero, NULL)

    def last_one(self):
        """The greatest index of a 1, if there is one."""
        return held(told, self, self, fb_last_one, NULL)

    def last_zero(self):
        """The greatest index of a 0, if there is one."""
        return held(told, self, self, fb_last_zero, NULL)

    def ones(self):
        """The indices of all ones, ascending."""
        cdef uint64_t[4] numbers
        numbers = [True, False, 0, 0]
        return held(indexed, self, self, NULL, numbers)

    def indices(self, bit=True):
        """The indices of all bits that are so, ascending, as an array of numbers."""
        cdef uint64_t[4] numbers
        numbers = [bit_of(bit), True, 0, 0]
        return held(indexed, self, self, NULL, numbers)

    def find(self, item, start=0, stop=None):
        """The least index of a bit, or from which on bits stand together, in a part; None where there is none."""
        return found(self, item, start, stop, False)

    def rfind(self, item, start=0, stop=None):
        """The greatest such index."""
        return found(self, item, start, stop, True)

    def findall(self, item):
        """All indices of a bit, or from which on bits stand together, ascending."""
        cdef uint64_t[4] numbers
        if is_bits(item):
            numbers = [0, sys.maxsize, 0, 1]
            return held(places, self, bits_of(item, self.window.order), NULL, numbers)
        numbers = [bit_of(item), False, 0, 0]
        return held(indexed, self, self, NULL, numbers)

    def any(self):
        """Whether some bit is 1."""
        return held(asked, self, self, fb_any, NULL)

    def all(self):
        """Whether no bit is 0."""
        return held(asked, self, self, fb_all, NULL)

    def starts_with(self, Bits right not None):
        """Whether the right bits are the first."""
        return held(asked, self, right, fb_starts_with, NULL)

    def ends_with(self, Bits right not None):
        """Whether the right bits are the last."""
        return held(asked, self, right, fb_ends_with, NULL)

    def load_le(self):
        """The number of 1 to 64 bits; of its segments, cut where elements are, the first is the lowest. Refused: other lengths."""
        return held(told, self, self, fb_load_le, NULL)

    def load_be(self):
        """The number of 1 to 64 bits; of its segments, cut where elements are, the first is the highest. Refused: other lengths."""
        return held(told, self, self, fb_load_be, NULL)

    def store_le(self, number):
        """Gives 1 to 64 bits the number modulo 2 to the length that load_le then reads. Refused: other lengths."""
        cdef uint64_t value = whole(number)
        return held_by(edited, self, self, fb_store_le, value)

    def store_be(self, number):
        """Gives 1 to 64 bits the number modulo 2 to the length that load_be then reads. Refused: other lengths."""
        cdef uint64_t value = whole(number)
        return held_by(edited, self, self, fb_store_be, value)


cdef class FrozenBits(Bits):
    """Bits with a memory of their own that can't be written, and so have a hash. They come as Bits, a text, bytes or an iterable.

    >>> {FrozenBits("0110"): "some"}[FrozenBits([0, 1, 1, 0])]
    'some'
    """

    def __cinit__(self):
        self.fixed = True

    def __init__(self, bits=(), order=Lsb0):
        held(frozen, self, bits_of(bits, order_of(order)), NULL, NULL)

    def __hash__(self):
        if self.hashed == 0:
            self.hashed = hash((self.window.len, (Bits.zeros(0) + self).to_bytes()))
            self.filled = True
        return self.hashed

    def __richcmp__(self, right, int operation):  # a class with a hash of its own inherits none
        return compared_with(self, right, operation)


# ---- Arguments

cdef inline int bit_of(object value) except -1:
    """A bit: what is equal to 0 or 1."""
    if value is True or value is False:
        return value is True
    if value == 0:
        return False
    if value == 1:
        return True
    raise ValueError(f"{value!r} isn't a bit")

cdef inline uint32_t order_of(object order) except? 99:
    return FB_LSB0 if order is LSB0 else FB_MSB0 if order is MSB0 else Order(order)

cdef inline uint64_t whole(object number) except? 0:
    return <uint64_t>PyNumber_Index(number)

cdef inline uint64_t times_of(object times) except? 0:
    """How often bits are to stand, which isn't less than no times."""
    return <uint64_t>min(max(PyNumber_Index(times), 0), <uint64_t>-1)

cdef inline size_t place_of(Bits bits, Py_ssize_t place, object index) except? 0:
    """The place of an index, which counts from the end where it is below 0."""
    cdef Py_ssize_t length = bits.window.len
    if place < 0:
        place += length
    if not 0 <= place < length:
        raise RefusedIndex(Status.INDEX, f"{index} of {length} bits")
    return place

cdef inline size_t index_of(Bits bits, object index) except? 0:
    return place_of(bits, PyNumber_AsSsize_t(index, NULL), index)

cdef inline Py_ssize_t unpacked(object key, uint64_t *numbers) except? 0:
    """The start, the stop and the step of a slice, and the step once more."""
    cdef Py_ssize_t start, stop, step
    PySlice_Unpack(key, &start, &stop, &step)
    numbers[0], numbers[1], numbers[2] = start, stop, step
    return step

cdef inline Py_ssize_t cut(Bits bits, uint64_t *numbers, size_t *start, size_t *length):
    """The step of a slice, the least index that it names, and how many."""
    cdef Py_ssize_t first = numbers[0], stop = numbers[1], step = numbers[2]
    cdef Py_ssize_t count = PySlice_AdjustIndices(bits.window.len, &first, &stop, step)
    length[0], start[0] = count, first if step > 0 else first + (count - 1) * step if count else 0
    return step

cdef inline fb_window span(Bits bits, size_t start, Py_ssize_t step, size_t length):
    """From the first to the last of so many bits, each so many behind the one before."""
    return fb_part(&bits.window, start, (length - 1) * <size_t>(step if step > 0 else -step) + 1 if length else 0)

cdef inline bint is_bits(object item):
    return isinstance(item, Bits) or not isinstance(item, int) and hasattr(item, "__iter__")

cdef Bits bits_of(object item, uint32_t order):
    """Bits as they come, or with elements of their own."""
    if isinstance(item, Bits):
        return item
    if isinstance(item, str):
        return of_text(Bits, item, order)
    return Bits(item, Order(order)) if isinstance(item, (bytes, bytearray, memoryview)) else of_bools(Bits, item, order)

cdef str digits_of(object text):
    """A text of 0 and 1 without white space. ValueError: another character."""
    cdef str digits = PyUnicode_FromObject(text)
    if not are_digits(digits):
        digits = "".join(digits.split())
        if not are_digits(digits):
            raise ValueError(f"{digits.lstrip('01')[0]!r} isn't a bit")
    return digits

cdef bint are_digits(str text) except -1:
    PyUnicode_READY(text)
    return PyUnicode_IS_ASCII(text) and fb_are_digits(<const uint8_t *>PyUnicode_DATA(text), PyUnicode_GET_LENGTH(text))

cdef inline bint selects(object key):
    """Whether a key is a mask or a list of indices."""
    return type(key) is not int and type(key) is not slice and isinstance(key, (Bits, list))

cdef Bits given_of(object given, uint32_t order):
    """So many zeros, or the bits of a text or an iterable, which are no memory."""
    if isinstance(given, (bool, Bits)):
        raise TypeError(f"{type(given).__name__} is neither a memory nor a length")
    return Bits.zeros(given, Order(order)) if isinstance(given, int) else bits_of(given, order)

# ---- Operands, and the way to the library

cdef inline Bits root_of(Bits bits):
    """The bits that have the memory."""
    return bits if bits.keeper is None else bits.keeper

cdef object held(Entry entry, Bits left, Bits right, Call call, uint64_t *numbers):
    """What an entry answers, by four numbers or none. Both operands keep their places and lengths meanwhile."""
    cdef Bits first = root_of(left), second = root_of(right)
    cdef uint64_t[4] own
    if numbers == NULL:
        own[0], numbers = 0, own
    first.views += 1
    second.views += 1
    try:
        return entry(left, right, call, numbers)
    finally:
        first.views -= 1
        second.views -= 1

cdef inline object held_by(Entry entry, Bits left, Bits right, Call call, uint64_t number):
    """What an entry answers that takes a number."""
    cdef uint64_t[4] numbers
    numbers[0] = number
    return held(entry, left, right, call, numbers)

cdef inline fb_status work(Window left, Window right, Call call, uint64_t *numbers):
    """Carries out a call; a long one gives the lock back. Nobody may take the memories away: who asks for it counts views."""
    cdef fb_status status
    if left.len < LONG and right.len < LONG:
        return call(left, right, numbers)
    with nogil:
        status = call(left, right, numbers)
    return status

cdef object between(Entry entry, object left, object right, Call call):
    """An operator between bits."""
    return held(entry, left, right, call, NULL) if isinstance(left, Bits) and isinstance(right, Bits) else NotImplemented

cdef inline bint are_few(object left, object right):
    """Whether these are some whole words of bits alike."""
    return type(left) is Bits and isinstance(right, Bits) and fb_are_few(&(<Bits>left).window, &(<Bits>right).window)

cdef object few(object left, object right, Few combine, Entry entry, Call call):
    """Some words of bits, combined here, where these are such, and else by an entry. They are read when no code runs any more."""
    cdef Bits answer
    if are_few(left, right):
        answer = made()
        if are_few(left, right):
            sized(answer, (<Bits>left).window.len, (<Bits>left).window.order, (<Bits>left).window.shift)
            combine(<uint64_t *>answer.window.elements, &(<Bits>left).window, &(<Bits>right).window)
            return answer
    return between(entry, left, right, call)

cdef inline bint are_combined(Bits left, object right, Few combine):
    """Whether some words of bits are combined with right ones here, as where these are such that aren't written."""
    if left.fixed or not are_few(left, right) or fb_overlap(&left.window, &(<Bits>right).window):
        return False
    combine(<uint64_t *>left.window.elements, &left.window, &(<Bits>right).window)
    return True

cdef object shifted(Entry entry, object left, object by, Call call):
    """A shift by so many places; by more than there are bits none is left."""
    if not isinstance(left, Bits):
        return NotImplemented
    places = PyNumber_AsSsize_t(by, NULL)
    if places < 0:
        raise OverflowError(f"{by} isn't a number of places")
    return held_by(entry, left, left, call, places)

cdef inline void keep(Bits part, Bits bits):
    """Makes bits a part of others' memory."""
    part.keeper, part.fixed = root_of(bits), bits.fixed
    part.keeper.views += 1

cdef inline Bits part_of(Bits bits, uint64_t *numbers):
    """The bits of a slice without a step, as a view."""
    cdef Bits part = made()
    cdef size_t start, length
    cut(bits, numbers, &start, &length)
    part.window = fb_part(&bits.window, start, length)
    keep(part, bits)
    return part

cdef inline Window written(Bits bits) except NULL:
    """The window of bits that can be written."""
    if bits.fixed:
        held = root_of(bits).held
        raise ReadOnly(f"the memory of a {type(bits if held is None else held.obj).__name__} that can only be read")
    return &bits.window

cdef int whole_elements(Bits bits) except -1:
    """Raises BufferError where bits begin or end inside an element."""
    if bits.window.start or bits.window.len % (1 << bits.window.shift):
        raise BufferError("the bits begin or end inside an element")
    return 0

cdef bint is_padded(Bits bits) except -1:
    """Whether bits have bytes of their own whose buffer has the last one too, whatever they have of it, as a class says of its own."""
    return type(bits) is not Bits and bits.keeper is None and bits.held is None and getattr(type(bits), "is_padded", False)

cdef inline void clear_behind(Bits bits):
    """Makes the bits of the last byte that are behind the last bit 0 again, which growing needs."""
    cdef size_t length = bits.window.len
    cdef fb_window rest = fb_part(&bits.window, length, (bits.window.count << bits.window.shift) - length)
    cdef uint64_t bit = 0
    cdef fb_status _ = fb_fill(&rest, &rest, &bit)  # which is done, as of each part of its own memory

cdef Bits beside(Window left, Bits right, bint is_written):
    """The right bits as C takes them beside a window that is written or not; or else a copy."""
    if fb_alike(left, &right.window) and not (is_written and fb_overlap(left, &right.window)):
        return right
    return copied(right, left.order, left.shift)

cdef inline int as_many(Bits right, size_t length) except -1:
    return 0 if right.window.len == length else refuse(FB_LENGTH, f"{right.window.len} bits for {length}")

cdef inline int done(fb_status status) except -1:
    return 0 if status == 0 else refuse(status, "")

cdef int refuse(fb_status status, str what) except -1:
    raise Refused(status, what)

cdef inline Bits after(Bits bits, fb_status status):
    """The bits after an edit."""
    if status:
        refuse(status, f"of {bits.window.len} bits")
    return bits

# ---- Bits that are made

cdef inline int empty(Bits bits) except -1:
    """Raises TypeError where bits have a memory."""
    if bits.held is not None or bits.keeper is not None or bits.window.len or bits.views or bits.fixed:
        raise TypeError("these bits have a memory")
    return 0

cdef int settle(Bits bits, object view, uint32_t order) except -1:
    """Makes bits those of the memory of a memoryview."""
    cdef Py_buffer *buffer = PyMemoryView_GET_BUFFER(view)
    form, size = "B" if buffer.format == NULL else buffer.format.decode(), buffer.itemsize
    if form != "B" and form.lstrip("@=<" if sys.byteorder == "little" else "@=>") not in tuple("BHILQN"):
        raise TypeError(f"elements of format '{form}', and not unsigned integers of 8 to 64 bits")
    if not PyBuffer_IsContiguous(buffer, b"C"):
        raise TypeError("a buffer that isn't contiguous")
    if buffer.len and <uintptr_t>buffer.buf % size:
        raise ValueError(f"a buffer that isn't aligned for elements of {8 * size} bits")
    cdef fb_window window = fb_window(buffer.buf, buffer.len // size, 0, 8 * buffer.len, order, 2 + size.bit_length())
    empty(bits)
    bits.held, bits.fixed, bits.window = view, buffer.readonly, window
    return 0

cdef int grown(Bits bits, Bits given, uint32_t order) except -1:
    """Gives bits that have none others' bits, in bytes of their own."""
    empty(bits)
    resized(bits, given.window.len)
    bits.window.order = order
    held_by(put_behind, bits, given, NULL, 0)
    return 0

cdef int settle_beside(Bits bits, Bits others, uint32_t order) except -1:
    """Makes bits those of the bytes of others."""
    cdef size_t size = fb_size(&others.window)
    empty(bits)
    if root_of(others) is bits:
        raise TypeError("these bits have no memory")
    bits.window = fb_window(others.window.elements, size, 0, 8 * size, order, 3)
    keep(bits, others)
    return 0

cdef list LET_GO = []
cdef int depth = 0

cdef int let_go(Bits bits) except -1:
    """Lets a memory go, which may be that of bits in their turn, in any depth."""
    global depth
    if depth == 50:
        LET_GO.append(bits.held)
        return 0
    depth += 1
    bits.held = None
    depth -= 1
    while depth == 0 and LET_GO:
        depth += 1
        LET_GO.pop()
        depth -= 1
    return 0

cdef enum: MOST_SPARE = 64
cdef PyObject *SPARE[MOST_SPARE]  # bits that nobody has any more, as they are without a memory, which the next ones are made of
cdef int spare = 0
cdef destructor FREE = (<PyTypeObject *>Bits).tp_dealloc

cdef void let_spare(PyObject *object):
    """Lets bits go whose end runs no code, and keeps a few of them; this takes less than what Cython does for all."""
    global spare
    if spare == MOST_SPARE or Py_TYPE(object) != <PyTypeObject *>Bits or (<Bits>object).held is not None or PyObject_GET_WEAKREFS_LISTPTR(object)[0] != NULL:
        FREE(object)
        return
    if (<Bits>object).keeper is not None:
        if Py_REFCNT(<PyObject *>(<Bits>object).keeper) == 1:
            FREE(object)
            return
        (<Bits>object).keeper.views -= 1
        (<Bits>object).keeper = None
    PyObject_GC_UnTrack(object)
    PyMem_Free((<Bits>object).block)
    (<Bits>object).block, (<Bits>object).words, (<Bits>object).views, (<Bits>object).fixed, (<Bits>object).padded = NULL, 0, 0, False, False
    (<Bits>object).window = fb_window((<Bits>object).room, 0, 0, 0, FB_LSB0, 3)
    SPARE[spare] = object
    spare += 1

(<PyTypeObject *>Bits).tp_dealloc = let_spare

cdef inline Bits made():
    """Bits of the class itself, without a memory."""
    global spare
    cdef Bits bits
    if spare == 0:
        return Bits.__new__(Bits)
    spare -= 1
    bits = <Bits>PyObject_Init(SPARE[spare], <PyTypeObject *>Bits)
    Py_DECREF(bits)  # which the assignment counts once more
    PyObject_GC_Track(<PyObject *>bits)
    return bits

cdef inline Bits blank(object kind):
    """Bits of a kind, without a memory. They count a view until they are finished, since the collector may find them before."""
    cdef Bits bits
    if kind is Bits:
        bits = made()
    else:
        bits = FrozenBits.__new__(kind) if issubclass(kind, FrozenBits) else Bits.__new__(kind)
        bits.filled = bits.fixed
    bits.views = 1
    return bits

cdef inline Bits finished(Bits bits, fb_status status):
    """Bits that a call made."""
    bits.views -= 1
    return after(bits, status)

cdef inline int sized(Bits bits, size_t length, uint32_t order, unsigned shift) except -1:
    """Gives blank bits elements of their own, of any values; those past the bits are 0."""
    cdef size_t words = length // 64 + (length % 64 != 0)
    cdef uint64_t *elements = bits.room
    if words > 8:
        elements = <uint64_t *>PyMem_Malloc(8 * words) if length <= MOST_BITS else NULL
        if elements == NULL:
            raise MemoryError
        bits.block, bits.words = elements, words
    if words:
        elements[words - 1] = 0
    bits.window = fb_window(elements, (length + (<size_t>1 << shift) - 1) >> shift, 0, length, order, shift)
    return 0

cdef inline Bits filled_with(Bits bits, Bits others, uint32_t order, unsigned shift):
    """Blank bits, with others' bits in elements of their own."""
    sized(bits, others.window.len, order, shift)
    return after(bits, work(&bits.window, &others.window, fb_carry, NULL))

cdef inline Bits like(Bits bits):
    """The bits with elements of their own, as theirs, and of their class."""
    return filled_with(blank(type(bits)), bits, bits.window.order, bits.window.shift)

cdef Bits copied(Bits bits, uint32_t order, unsigned shift):
    """The bits with elements of their own, of a kind."""
    return filled_with(blank(Bits), bits, order, shift)

cdef Bits of_text(object kind, object text, uint32_t order):
    """Bits of a text of 0 and 1."""
    cdef str digits = digits_of(text)
    cdef Bits bits = blank(kind)
    sized(bits, PyUnicode_GET_LENGTH(digits), order, 3)
    return after(bits, read_digits(&bits.window, digits))

cdef inline fb_status read_digits(Window window, str digits):
    """Gives as many bits the values of digits."""
    cdef uint64_t number = <uintptr_t>PyUnicode_DATA(digits)
    return work(window, window, fb_read_digits, &number)

cdef Bits of_bools(object kind, object items, uint32_t order):
    """Bits of truth values."""
    cdef list values = list(items)
    cdef size_t place, length = len(values)
    cdef Bits bits = blank(kind)
    cdef bint bit
    sized(bits, length, order, 3)
    memset(bits.window.elements, 0, bits.window.count)
    for place in range(length):
        bit = bit_of(values[place])
        fb_poke(&bits.window, place, bit)
    return bits

cdef Bits of_bytes(object kind, object data, size_t most, uint32_t order, unsigned shift):
    """Bits of the bytes that to_bytes gives, at most so many."""
    cdef Py_buffer buffer
    cdef fb_window given
    cdef Bits bits
    PyObject_GetBuffer(data, &buffer, PyBUF_SIMPLE)
    try:
        bits = blank(kind)
        given = fb_window(buffer.buf, buffer.len, 0, min(most, 8 * <size_t>buffer.len), order, 3)
        given = fb_part(&given, 0, given.len)
        sized(bits, given.len, order, shift)
        return after(bits, work(&bits.window, &given, fb_carry, NULL))
    finally:
        PyBuffer_Release(&buffer)

def restored(data, length, order, width=8, kind=Bits):
    """Bits with elements of their own, of the bytes that to_bytes gives."""
    cdef size_t most = whole(length)
    if not issubclass(kind, Bits):
        raise TypeError(f"{kind!r} is no class of bits")
    return finished(of_bytes(kind, data, most, order_of(order), 3 + (8, 16, 32, 64).index(width)), 0)

cdef object frozen(Bits bits, Bits others, Call call, uint64_t *numbers):
    """Gives frozen bits theirs, once."""
    if bits.filled or bits.views > 1 + (root_of(others) is bits):
        raise TypeError("these bits have a memory")
    bits.filled = True
    filled_with(bits, others, others.window.order, others.window.shift)

# ---- Entries

cdef object edited(Bits left, Bits right, Call call, uint64_t *numbers):
    """The left bits after an edit."""
    return after(left, work(written(left), &left.window, call, numbers))

cdef object edited_beside(Bits left, Bits right, Call call, uint64_t *numbers):
    """The left bits after an edit by right ones."""
    written(left)
    cdef Bits other = beside(&left.window, right, True)
    return after(left, work(&left.window, &other.window, call, numbers))

cdef object edited_alike(Bits left, Bits right, Call call, uint64_t *numbers):
    """The left bits after an edit by as many right ones."""
    written(left)
    as_many(right, left.window.len)
    return edited_beside(left, right, call, numbers)

cdef object remade(Bits left, Bits right, Call call, uint64_t *numbers):
    """Bits of their own: the left ones after an edit."""
    cdef Bits answer = like(left)
    return finished(answer, work(&answer.window, &answer.window, call, numbers))

cdef object combined(Bits left, Bits right, Call call, uint64_t *numbers):
    """Bits of their own: the left ones after an edit by right ones."""
    cdef Bits answer = like(left), other = beside(&answer.window, right, False)
    return finished(answer, work(&answer.window, &other.window, call, numbers))

cdef object asked(Bits left, Bits right, Call call, uint64_t *numbers):
    """Whether something holds."""
    cdef Bits other = beside(&left.window, right, False)
    done(work(&left.window, &other.window, call, numbers))
    return numbers[0] != 0

cdef object told(Bits left, Bits right, Call call, uint64_t *numbers):
    """A count, a number, or a place; or None where there is none."""
    cdef Bits other = beside(&left.window, right, False)
    cdef fb_status status = work(&left.window, &other.window, call, numbers)
    if status == FB_NONE:
        return None
    after(left, status)
    return numbers[0]

cdef object compared(Bits left, Bits right, Call call, uint64_t *numbers):
    """Whether the left bits come before the right ones, or as the comparison in numbers[0] says."""
    cdef Bits other = beside(&left.window, right, False)
    cdef uint64_t answer = 0
    cdef int operation = numbers[0]
    done(work(&left.window, &other.window, call, &answer))
    cdef int64_t order = <int64_t>answer
    return order < (operation == Py_LE) if operation in (Py_LT, Py_LE) else order > -(operation == Py_GE)

cdef object compared_with(Bits left, object right, int operation):
    """What a comparison answers."""
    cdef uint64_t number = operation
    if not isinstance(right, Bits):
        return NotImplemented
    if operation == Py_EQ or operation == Py_NE:
        if are_few(left, right):
            fb_same(&left.window, &(<Bits>right).window, &number)
            return (number != 0) == (operation == Py_EQ)
    if operation == Py_EQ:
        return held(asked, left, right, fb_same, NULL)
    return not held(asked, left, right, fb_same, NULL) if operation == Py_NE else held_by(compared, left, right, fb_compare, number)

cdef object counted(Bits left, Bits right, Call call, uint64_t *numbers):
    """How many bits of a slice are as numbers[3]."""
    cdef size_t start, length, ones
    cdef Py_ssize_t step = cut(left, numbers, &start, &length)
    cdef fb_window part = span(left, start, step, length)
    numbers[0] = abs(step)
    done(work(&part, &part, fb_count_ones if abs(step) == 1 else fb_count_step, numbers))
    ones = numbers[0]
    return ones if numbers[3] else length - ones

cdef object indexed(Bits left, Bits right, Call call, uint64_t *numbers):
    """The indices of the bits that are as numbers[0], as a list, or as an array if numbers[1] says so."""
    cdef size_t count, place
    cdef bint is_array = numbers[1]
    cdef Bits source = left
    cdef size_t *table
    if not numbers[0]:
        source = copied(left, left.window.order, left.window.shift)
        done(work(&source.window, &source.window, fb_invert, numbers))
    done(work(&source.window, &source.window, fb_count_ones, numbers))
    count = numbers[0]
    table = <size_t *>PyMem_Malloc(max(count, 1) * sizeof(size_t))
    if table == NULL:
        raise MemoryError
    try:
        numbers[0], numbers[1], numbers[2] = 0, count, <uintptr_t>table
        done(work(&source.window, &source.window, fb_ones, numbers))
        return as_array(table, numbers[0]) if is_array else as_numbers(table, numbers[0])
    finally:
        PyMem_Free(table)

cdef list as_numbers(const size_t *table, size_t count):
    """A table as a list."""
    cdef list answer = PyList_New(count)
    cdef object number
    cdef size_t place
    for place in range(count):
        number = table[place]
        Py_INCREF(number)
        PyList_SET_ITEM(answer, place, number)
    return answer

cdef array as_array(const size_t *table, size_t count):
    """A table as an array."""
    cdef array answer = clone(INDICES, count, False)
    memcpy(answer.data.as_voidptr, table, count * sizeof(size_t))
    return answer

cdef object every(Bits left, Bits right, Call call, uint64_t *numbers):
    """Bits of their own: those of a slice with a step."""
    cdef size_t start, length
    cdef Py_ssize_t step = cut(left, numbers, &start, &length)
    cdef fb_window part = span(left, start, step, length)
    cdef Bits answer = blank(type(left))
    sized(answer, length, left.window.order, left.window.shift)
    numbers[0], numbers[1] = 1, abs(step)
    done(work(&answer.window, &part, fb_copy_step, numbers))
    return finished(answer, work(&answer.window, &answer.window, fb_reverse, numbers) if step < 0 else 0)

cdef object assigned(Bits left, Bits right, Call call, uint64_t *numbers):
    """Gives the bits of a slice the values of as many right ones."""
    cdef size_t start, length
    cdef Py_ssize_t step = cut(left, numbers, &start, &length)
    cdef fb_window part = span(left, start, step, length)
    cdef Bits source
    written(left)
    as_many(right, length)
    source = beside(&part, right, True)
    if step == 1:
        done(work(&part, &source.window, fb_carry, numbers))
        return None
    if step < 0:
        source = copied(source, part.order, part.shift)
        done(work(&source.window, &source.window, fb_reverse, numbers))
    numbers[0], numbers[1] = abs(step), 1
    done(work(&part, &source.window, fb_copy_step, numbers))

cdef object filled(Bits left, Bits right, Call call, uint64_t *numbers):
    """Gives each bit of a slice the value of numbers[3]."""
    cdef size_t start, length
    cdef Py_ssize_t step = cut(left, numbers, &start, &length)
    cdef fb_window part = span(left, start, step, length)
    written(left)
    if step == 1:
        numbers[0] = numbers[3]
        done(work(&part, &part, fb_flood, numbers))
    else:
        numbers[0], numbers[1] = abs(step), numbers[3]
        done(work(&part, &part, fb_fill_step, numbers))

cdef object joined(Bits left, Bits right, Call call, uint64_t *numbers):
    """Bits of their own: the left ones, and the right ones behind them."""
    cdef Bits answer = blank(type(left))
    cdef size_t length = left.window.len
    sized(answer, length + right.window.len, left.window.order, left.window.shift)
    put(&answer.window, 0, left)
    put(&answer.window, length, right)
    return finished(answer, 0)

cdef int put(Window window, size_t start, Bits bits) except -1:
    """Copies bits to those of a window from a place on."""
    cdef fb_window part = fb_part(window, start, bits.window.len)
    return done(work(&part, &bits.window, fb_carry, NULL))

cdef object put_behind(Bits left, Bits right, Call call, uint64_t *numbers):
    """Copies the right bits to the left ones from numbers[0] on."""
    put(&left.window, numbers[0], right)

cdef object multiplied(Bits left, Bits right, Call call, uint64_t *numbers):
    """Bits of their own: the left ones, numbers[0] times."""
    cdef Bits answer = blank(type(left))
    cdef size_t length = left.window.len
    sized(answer, product(length, numbers[0]), left.window.order, left.window.shift)
    if answer.window.len:
        put(&answer.window, 0, left)
    numbers[0] = length
    return finished(repeated(answer, answer, call, numbers), 0)

cdef object repeated(Bits left, Bits right, Call call, uint64_t *numbers):
    """The left bits, whose first numbers[0] are repeated up to the end."""
    cdef size_t there = numbers[0]
    while 0 < there < left.window.len:
        numbers[0], numbers[1], numbers[2] = 0, min(there, left.window.len - there), there
        there += numbers[1]
        done(work(&left.window, &left.window, fb_copy_within, numbers))
    return left

cdef object swapped(Bits left, Bits right, Call call, uint64_t *numbers):
    """The left bits, which are exchanged with the right ones."""
    cdef Bits first, second
    written(right)
    as_many(right, written(left).len)
    if not fb_alike(&left.window, &right.window) or fb_meet(&left.window, &right.window):
        raise ValueError("right bits that are some of these, or of another order or element")
    if not fb_overlap(&left.window, &right.window):
        return after(left, work(&left.window, &right.window, call, numbers))
    first = copied(left, left.window.order, left.window.shift)  # two parts of one element
    second = copied(right, left.window.order, left.window.shift)
    done(work(&left.window, &second.window, fb_copy, numbers))
    return after(left, work(&right.window, &first.window, fb_copy, numbers))

cdef object ran(Bits left, Bits right, Call call, uint64_t *numbers):
    """Carries out a run of steps."""
    cdef fb_window all = root_of(right).window
    if not fb_alike(&all, &right.window):
        all = fb_window(all.elements, fb_size(&all) >> right.window.shift - 3, 0, 8 * fb_size(&all), right.window.order, right.window.shift)
    if not fb_alike(&left.window, &all) or fb_overlap(&left.window, &all):
        raise ValueError("a right view of this memory, or of another order or element")
    done(work(written(left), &all, call, numbers))

cdef object as_copy(Bits left, Bits right, Call call, uint64_t *numbers):
    return finished(like(left), 0)

cdef object as_bytes(Bits left, Bits right, Call call, uint64_t *numbers):
    cdef size_t size = (left.window.len + 7) // 8
    cdef bytes data = PyBytes_FromStringAndSize(NULL, size)
    cdef fb_window all = fb_window(PyBytes_AS_STRING(data), size, 0, 8 * size, left.window.order, 3)
    if size:
        (<uint8_t *>all.elements)[size - 1] = 0
    put(&all, 0, left)
    return data

cdef bytes first_bytes(const void *elements, size_t length, uint32_t order):
    """The bytes of so many bits, and zeros behind them. No code runs while these are made."""
    cdef size_t size = (length + 7) // 8
    cdef bytes data = PyBytes_FromStringAndSize(NULL, size)  # of a byte that is given, CPython has one object for all
    memcpy(PyBytes_AS_STRING(data), elements, size)
    if length % 8:
        (<uint8_t *>PyBytes_AS_STRING(data))[size - 1] &= 0xff >> (8 - length % 8) if order == FB_LSB0 else 0xff << (8 - length % 8)
    return data

cdef object as_list(Bits left, Bits right, Call call, uint64_t *numbers):
    cdef list answer = PyList_New(left.window.len)
    cdef fb_window window = left.window
    cdef object bit
    cdef size_t place
    for place in range(window.len):
        bit = <object>BITS[fb_peek(&window, place)]
        Py_INCREF(bit)
        PyList_SET_ITEM(answer, place, bit)
    return answer

cdef object as_digits(Bits left, Bits right, Call call, uint64_t *numbers):
    cdef str text = PyUnicode_New(left.window.len, 127)
    numbers[0] = <uintptr_t>PyUnicode_DATA(text)
    done(work(&left.window, &left.window, fb_write_digits, numbers))
    return text

cdef object as_number(Bits left, Bits right, Call call, uint64_t *numbers):
    cdef bint is_lowest_first = left.window.order == FB_LSB0
    if 0 < left.window.len <= 64:
        return told(left, left, fb_load_le if is_lowest_first else fb_load_be, numbers)
    data = as_bytes(left, left, NULL, numbers)
    return int.from_bytes(data, "little") if is_lowest_first else int.from_bytes(data, "big") >> -left.window.len % 8

# ---- Searches

cdef object found(Bits bits, object item, object start, object stop, bint is_last):
    """The least or the greatest index in a part from which on bits stand, or that a bit has."""
    cdef uint64_t[4] numbers
    cdef bint bit = False
    cdef Bits needle = None
    if is_bits(item):
        needle = bits_of(item, bits.window.order)
    else:
        bit = bit_of(item)
    unpacked(slice(start, stop), numbers)
    numbers[2] = is_last
    if needle is not None:
        return held(located, bits, needle, NULL, numbers)
    if is_last:
        return held(located_bit, bits, bits, fb_last_one if bit else fb_last_zero, numbers)
    return held(located_bit, bits, bits, fb_first_one if bit else fb_first_zero, numbers)

cdef object located_bit(Bits bits, Bits right, Call call, uint64_t *numbers):
    cdef Py_ssize_t start = numbers[0], stop = numbers[1]
    cdef Py_ssize_t length = PySlice_AdjustIndices(bits.window.len, &start, &stop, 1)
    cdef fb_window part = fb_part(&bits.window, start, length)
    cdef fb_status status = work(&part, &part, call, numbers)
    if status == FB_NONE:
        return None
    done(status)
    return start + numbers[0]

cdef object located(Bits bits, Bits right, Call call, uint64_t *numbers):
    """Where the right bits stand; twice as many places are asked while no signal waits."""
    cdef Py_ssize_t start = numbers[0], stop = numbers[1]
    cdef size_t length = PySlice_AdjustIndices(bits.window.len, &start, &stop, 1), low, high, most, size = 64
    cdef bint is_last = numbers[2]
    cdef fb_window part = fb_part(&bits.window, start, length)
    cdef Bits needle = beside(&part, right, False)
    if needle.window.len > length:
        return None
    low, high, most = 0, length - needle.window.len + 1, max(64, (<size_t>1 << 24) // (needle.window.len // 64 + 1))
    while not stands(&part, needle, high - min(size, high - low) if is_last else low, min(size, high - low)):
        PyErr_CheckSignals()
        if size >= high - low:
            return None
        if is_last:
            high -= size
        else:
            low += size
        size = min(2 * size, most)
    size = min(size, high - low)
    return start + narrowed(&part, needle, high - size if is_last else low, size, is_last)

cdef object places(Bits bits, Bits right, Call call, uint64_t *numbers):
    """The indices of a part from which on the right bits stand, each at least numbers[3] behind the one before."""
    cdef Bits needle = beside(&bits.window, right, False)
    cdef Py_ssize_t start = numbers[0], stop = numbers[1]
    cdef Py_ssize_t length = PySlice_AdjustIndices(bits.window.len, &start, &stop, 1)
    cdef uint64_t end = start + length
    cdef list answer = []
    numbers[0], numbers[1], numbers[2] = start, end, False
    while numbers[0] <= end:
        place = located(bits, needle, NULL, numbers)
        if place is None:
            break
        answer.append(place)
        numbers[0] = place + numbers[3]
    return answer

cdef object apart(Bits bits, Bits right, Call call, uint64_t *numbers):
    """The indices of a slice without a step from which on the right bits stand, one behind the other."""
    if <Py_ssize_t>numbers[2] != 1 or right.window.len == 0:
        raise ValueError("bits are counted without a step, and no bits not at all")
    numbers[3] = right.window.len
    return places(bits, right, NULL, numbers)

cdef size_t narrowed(Window part, Bits needle, size_t low, size_t size, bint is_last) except? 0:
    """The place where the needle stands, which is one of so many."""
    cdef size_t half
    while size > 1:
        half = size // 2
        if is_last and stands(part, needle, low + half, size - half) or not is_last and not stands(part, needle, low, half):
            low, size = low + half, size - half
        else:
            size = half
    return low

cdef bint stands(Window window, Bits needle, size_t start, size_t places) except -1:
    """Whether the needle stands at one of so many places."""
    cdef fb_window part = fb_part(window, start, places + needle.window.len - 1)
    cdef uint64_t answer = 0
    done(work(&part, &needle.window, fb_contains, &answer))
    return answer != 0

# ---- Bits that change their length

cdef int resizable(Bits bits) except -1:
    """Raises BufferError where bits keep their length."""
    written(bits)
    if bits.views or bits.held is not None or bits.keeper is not None:
        raise BufferError("bits that have views, or whose memory isn't their own, keep their length")
    return 0

cdef int resized(Bits bits, size_t length) except -1:
    """Gives bits with a memory of their own another length. Those that come are 0, as all of elements past the bits."""
    cdef size_t old = bits.window.len, words = length // 64 + (length % 64 != 0), size = fb_size(&bits.window)
    cdef uint64_t *block
    cdef uint64_t bit = 0
    cdef fb_window rest
    resizable(bits)
    if length > MOST_BITS:
        raise MemoryError
    if length < old:
        rest = fb_part(&bits.window, length, old - length)
        done(fb_flood(&rest, &rest, &bit))
    elif words > max(bits.words, 8):
        words += words // 2
        block = <uint64_t *>PyMem_Realloc(bits.block, 8 * words)
        if block == NULL:
            raise MemoryError
        if bits.block == NULL:
            memcpy(block, bits.room, 64)
        bits.block, bits.words, bits.window.elements = block, words, block
    bits.window.len, bits.window.count = length, (length + (<size_t>1 << bits.window.shift) - 1) >> bits.window.shift
    if length > old:
        memset(<char *>bits.window.elements + size, 0, fb_size(&bits.window) - size)
    return 0

cdef int spell_behind(Bits bits, str digits) except -1:
    """Adds the bits of digits behind the last."""
    cdef size_t length = bits.window.len
    cdef uint64_t number = <uintptr_t>PyUnicode_DATA(digits)
    cdef fb_window part
    resized(bits, length + PyUnicode_GET_LENGTH(digits))
    part = fb_part(&bits.window, length, bits.window.len - length)
    return done(fb_read_digits(&part, &part, &number))

cdef int taken(Bits bits, size_t start, size_t step, size_t size, size_t times) except -1:
    """Takes away so many bits of every `step`, so many times; those between move towards the start."""
    cdef size_t number, begin, end
    cdef uint64_t[3] numbers
    resizable(bits)
    for number in range(times):
        begin = start + number * step + size
        end = begin + step - size if number + 1 < times else bits.window.len
        numbers = [begin, end, begin - size * (number + 1)]
        done(fb_copy_within(&bits.window, &bits.window, numbers))
    return resized(bits, bits.window.len - size * times)

cdef inline size_t product(size_t length, uint64_t times) except? 0:
    if length and times > MOST_BITS // length:
        raise MemoryError
    return length * times
