"""Bitarrays as bytes of a stream: the compressed form of sparse ones, and the form whose bytes say whether more follow."""
# mypy: ignore-errors

from operator import index

from ..bits import Bits
from ..codes import Msb0
from .arrays import bitarray
from .making import checked, order_of

# A block of few ones lists their places, each in 1 to 4 bytes. A block of bytes has as many as fit its head.
MOST_RAW, MOST_ONES = 128, (0, 31, 255, 255, 255)
PLAIN, SPARSE = 0xA0, 0xC0


def sparse_size(size, ones):
    """How many bytes a block of so many places of a size takes."""
    return (1 if size == 1 else 2) + size * ones


def best_size(bits, start, raw):
    """The size of places with which a block from a place on is shortest, or 0 where its bytes are."""
    best, cost = 0, 1 + raw
    ones = bits.count(1, start, start + 256)
    if ones <= MOST_ONES[1] and sparse_size(1, ones) < 1 + min(raw, 32):
        best, cost = 1, sparse_size(1, ones)
    for size in 2, 3, 4:
        part = 1 << 8 * (size - 1)
        if start + part >= len(bits):
            break
        ones = bits.count(1, start, start + (part << 8))
        parts = -(-min(len(bits) - start, part << 8) // part)
        if ones > MOST_ONES[size] or sparse_size(size, ones) > parts * sparse_size(size - 1, 0) + (size - 1) * ones:
            break
        best = size
    return best


def sparse_block(bits, start, size):
    """A block of places, which are counted from its first bit."""
    places = Bits.__getitem__(bits, slice(start, start + (1 << 8 * size))).ones()
    head = [PLAIN + len(places)] if size == 1 else [SPARSE + size, len(places)]
    return bytes(head) + b"".join(place.to_bytes(size, "little") for place in places)


def sc_encode(a, /):
    """A bitarray in few bytes, if it has few ones."""
    length, data, start = len(checked(a)), a.to_bytes(), 0
    size = (length.bit_length() + 7) // 8
    blocks = [bytes([16 * (a.order == Msb0) + size]), length.to_bytes(size, "little")]
    while start < length:
        raw = data[start // 8 : start // 8 + MOST_RAW]
        best = best_size(a, start, len(raw))
        if best:
            blocks.append(sparse_block(a, start, best))
            start += 1 << 8 * best
        else:
            raw = raw if len(raw) < MOST_RAW else raw[: raw_run(a, start)]
            blocks.append(bytes([len(raw)]) + raw)
            start += 8 * len(raw)
    return b"".join(blocks) + b"\0"


def raw_run(bits, start):
    """How many bytes from a place on stand in one block: as long as 32 of them have more ones than a block of places may."""
    size = 32
    while size < MOST_RAW and bits.count(1, start + 8 * size, start + 8 * size + 256) > MOST_ONES[1]:
        size += 32
    return size


def byte(stream):
    """The next byte of a stream."""
    for value in stream:
        return index(value)
    raise ValueError("unexpected end of stream")


def number(stream, size):
    """The number of so many bytes of a stream."""
    if size > 8:
        raise OverflowError(f"sizeof(Py_ssize_t) = 8: cannot read {size} bytes")
    found = int.from_bytes(bytes([byte(stream) for _ in range(size)]), "little", signed=True)
    if size == 8 and found < 0:
        raise ValueError(f"read 8 bytes got negative value: {found}")
    return found % (1 << 8 * size)


def read_places(stream, bits, start, size, many):
    """Reads a block of places, and gives where the next one begins."""
    for _ in range(many):
        place = start + number(stream, size)
        if place >= len(bits):
            raise ValueError(f"decode error (n={size}): {place} >= {len(bits)}")
        Bits.__setitem__(bits, place, True)
    return start + (1 << 8 * size)


def read_raw(stream, bits, start, many):
    """Reads a block of bytes, and gives where the next one begins."""
    if start // 8 + many > bits.nbytes:
        raise ValueError(f"decode error (raw): {start // 8} + {many} > {bits.nbytes}")
    data = Bits.from_bytes(bytes([byte(stream) for _ in range(many)]), bits.order)
    stop = min(start + 8 * many, len(bits))
    Bits.__setitem__(bits, slice(start, stop), data[: stop - start])
    return start + 8 * many


def sc_decode(stream, /):
    """The bitarray of what sc_encode gives, from a stream, of which no more is read."""
    stream = iter(stream)
    head = byte(stream)
    if head & 0xE0:
        raise ValueError(f"invalid header: 0x{head:02x}")
    bits, start = bitarray(number(stream, head & 15), "big" if head & 16 else "little"), 0
    while block := byte(stream):
        if block <= MOST_RAW:
            start = read_raw(stream, bits, start, block)
        elif PLAIN <= block < SPARSE:
            start = read_places(stream, bits, start, 1, block - PLAIN)
        elif SPARSE + 2 <= block <= SPARSE + 4:
            start = read_places(stream, bits, start, block - SPARSE, byte(stream))
        else:
            raise ValueError(f"invalid block head: 0x{block:02x}")
    return bits


def vl_encode(a, /):
    """Bits as bytes, of which each has 7, and the first 4 and how many are missing; the highest bit says that more follow."""
    text = Bits.__str__(checked(a))
    more = max((len(text) + 2) // 7, 0)
    missing = 4 + 7 * more - len(text)
    text += missing * "0"
    groups = [int(text[place : place + 7], 2) for place in range(4, len(text), 7)]
    found = bytearray([16 * missing + int(text[:4], 2), *groups])
    for place in range(more):
        found[place] |= 128
    return bytes(found)


def vl_decode(stream, /, endian=None):
    """The bitarray of what vl_encode gives, from a stream, of which no more is read."""
    order, stream = order_of(endian), iter(stream)
    last = byte(stream)
    text, missing = [f"{last & 15:04b}"], last >> 4 & 7
    while last & 128:
        last = byte(stream)
        text.append(f"{last & 127:07b}")
    if missing > (6 if len(text) > 1 else 4):
        raise ValueError(f"invalid number of padding bits: {missing}")
    digits = "".join(text)
    return bitarray(Bits.from_string(digits[: len(digits) - missing], order))
