"""Compares the package for Python with `bitarray`, operation by operation, on bits that keep changing: oracle.py [OPERATIONS]."""

import copy
import pickle
import random
import sys
from array import array

from bitarray import bitarray

from fehimbary import Bits, Lsb0, Msb0

CODES = {8: "B", 16: "H", 32: "I", 64: "Q"}


class Pair:
    """Bits at some place of a memory, and a bitarray of them."""

    def __init__(self, length, width, order):
        self.start, self.order = random.randint(0, 70), order
        count = -(-(self.start + length + random.randint(0, 70)) // width)
        self.memory = array(CODES[width], [random.getrandbits(width) for _ in range(count)])
        self.bits = Bits(self.memory, order)[self.start : self.start + length]
        self.list = bitarray(list(self.bits))

    @classmethod
    def drawn(cls, length):
        return cls(length, random.choice(list(CODES)), random.choice((Lsb0, Msb0)))

    def like(self, length):
        """Others, mostly of the same order and elements."""
        if random.random() < 0.3:
            return Pair.drawn(length)
        return Pair(length, 8 * self.memory.itemsize, self.order)


def part_of(pair):
    """A slice as Python takes any."""
    ends = [None, random.randint(-len(pair.bits) - 3, len(pair.bits) + 3)]
    return slice(random.choice(ends), random.choice([None, random.randint(-9, len(pair.bits) + 3)]))


def set_bit(pair):
    index, bit = random.randrange(-len(pair.bits), len(pair.bits)), random.getrandbits(1)
    pair.bits[index] = pair.list[index] = bit


def fill_part(pair):
    part, bit = part_of(pair), random.getrandbits(1)
    pair.bits[part] = bit
    pair.list[part] = bit


def write_part(pair):
    part = part_of(pair)
    other = pair.like(len(pair.list[part]))
    pair.bits[part] = other.bits
    pair.list[part] = other.list


def move_part(pair):
    length = random.randint(0, len(pair.bits))
    source, dest = (random.randint(0, len(pair.bits) - length) for _ in range(2))
    if random.getrandbits(1):
        pair.bits.copy_within(source, source + length, dest)
    else:
        pair.bits[dest : dest + length] = pair.bits[source : source + length]
    pair.list[dest : dest + length] = pair.list[source : source + length]


def combine(pair):
    other = pair.like(len(pair.bits))
    name = random.choice(["__iand__", "__ior__", "__ixor__"])
    getattr(pair.bits, name)(other.bits)
    getattr(pair.list, name)(other.list)


def combine_parts(pair):
    part = part_of(pair)
    other = pair.like(len(pair.list[part]))
    pair.bits[part] ^= other.bits
    pair.list[part] ^= other.list


def combine_copies(pair):
    other = pair.like(len(pair.bits))
    found = (pair.bits & other.bits, pair.bits | other.bits, pair.bits ^ other.bits, ~pair.bits)
    wanted = (pair.list & other.list, pair.list | other.list, pair.list ^ other.list, ~pair.list)
    assert all(str(it) == that.to01() for it, that in zip(found, wanted))


def shift(pair):
    by = random.randint(0, len(pair.bits) + 2)
    if random.getrandbits(1):
        pair.bits <<= by
        pair.list <<= by
    else:
        pair.bits >>= by
        pair.list >>= by


def shift_copies(pair):
    by, before = random.randint(0, len(pair.bits) + 2), str(pair.bits)
    assert (str(pair.bits << by), str(pair.bits >> by)) == ((pair.list << by).to01(), (pair.list >> by).to01())
    assert str(pair.bits) == before


def rotate(pair):
    by = random.randint(0, len(pair.bits))
    pair.bits.rotate_left(by)
    pair.list = pair.list[by:] + pair.list[:by]


def turn(pair):
    pair.bits.reverse()
    pair.list.reverse()


def flip(pair):
    pair.bits.invert()
    pair.list.invert()


def refill(pair):
    fresh = pair.like(len(pair.bits))
    pair.bits.copy_from(fresh.bits)
    pair.list[:] = fresh.list


def ask(pair):
    bits, those = pair.bits, pair.list
    assert (bits.count_ones(), bits.count_zeros()) == (those.count(1), those.count(0))
    assert (bits.any(), bits.all()) == (those.any(), those.all())
    for bit, first, last in [(1, bits.first_one, bits.last_one), (0, bits.first_zero, bits.last_zero)]:
        places = those.search(bitarray([bit]))
        assert (first(), last()) == ((places[0], places[-1]) if places else (None, None))
    assert bits.ones() == those.search(bitarray("1")) and list(map(int, bits)) == those.tolist()


def search(pair):
    part = part_of(pair)
    needle = pair.bits[part].copy() if random.getrandbits(1) else pair.like(random.randint(0, 7)).bits
    those = bitarray(str(needle))
    assert (needle in pair.bits) == (those in pair.list)
    place = pair.list.find(those)
    assert pair.bits.find(needle) == (None if place < 0 else place)
    places = pair.list.search(those) if those else list(range(len(pair.list) + 1))
    assert (pair.bits.findall(needle), pair.bits.rfind(needle)) == (places, places[-1] if places else None)
    assert not those or pair.bits.count(needle) == pair.list.to01().count(those.to01())
    start, stop = random.randint(-9, len(pair.list)), random.randint(-9, len(pair.list) + 3)
    place = pair.list[start:stop].find(those)
    assert pair.bits.find(needle, start, stop) == (None if place < 0 else place + len(range(len(pair.list))[:start]))
    assert pair.bits.starts_with(needle) == (pair.list[: len(those)] == those)
    assert pair.bits.ends_with(needle) == (len(those) <= len(pair.list) and pair.list[len(pair.list) - len(those) :] == those)


def compare(pair):
    other = pair.like(len(pair.bits) + random.randint(-2, 2) if len(pair.bits) > 2 else 3)
    shared = random.randint(0, min(len(pair.bits), len(other.bits)))
    other.bits[:shared] = pair.bits[:shared]
    other.list[:shared] = pair.list[:shared]
    assert (pair.bits == other.bits, pair.bits != other.bits) == (pair.list == other.list, pair.list != other.list)
    assert (pair.bits < other.bits, pair.bits >= other.bits) == (pair.list < other.list, pair.list >= other.list)
    assert (pair.bits <= other.bits, pair.bits > other.bits) == (pair.list <= other.list, pair.list > other.list)


def number(pair):
    length = random.randint(1, 64)
    if length > len(pair.bits):
        return
    start, value = random.randint(0, len(pair.bits) - length), random.getrandbits(64) % 2**length
    part, big = pair.bits[start : start + length], pair.order is Msb0
    (part.store_be if big else part.store_le)(value)
    digits = f"{value:0{length}b}"
    pair.list[start : start + length] = bitarray(digits if big else digits[::-1])
    assert (part.load_be if big else part.load_le)() == value


def step(pair):
    part, bit = part_of(pair), random.getrandbits(1)
    part = slice(part.start, part.stop, random.choice([-70, -7, -2, -1, 2, 3, 8, 64, 65]))
    assert pair.bits[part].tolist() == pair.list[part].tolist()
    other = pair.like(len(pair.list[part]))
    pair.bits[part], pair.list[part] = other.bits, other.list
    if random.getrandbits(1):
        pair.bits[part] = pair.list[part] = bit


def grow(pair):
    bits, those = pair.bits.copy(), pair.list.copy()
    for _ in range(random.randint(1, 12)):
        index, bit, other = random.randint(-len(those) - 2, len(those) + 2), random.getrandbits(1), pair.like(random.randint(0, 99))
        change = random.randrange(8)
        if change == 0:
            bits.append(bit)
            those.append(bit)
        elif change == 1:
            bits.insert(index, bit)
            those.insert(index, bit)
        elif change == 2:
            bits += other.bits
            those += other.list
        elif change == 3 and -len(those) <= index < len(those):
            assert bits.pop(index) == those.pop(index)
        elif change == 4:
            part = slice(index, random.randint(-9, len(those) + 3), random.choice([None, 1, 2, -1, -3, 9]))
            del bits[part], those[part]
        elif change == 5 and len(those) < 2000:
            bits *= index % 4
            those *= index % 4
        elif change == 6:
            bits, those = bits + other.bits, those + other.list
        else:
            bits.resize(abs(index), bit)
            those = (those + bitarray(abs(index) * [bit]))[: len(those)] + bitarray(max(abs(index) - len(those), 0) * [bit])
            those = those[: abs(index)]
        assert bits.tolist() == those.tolist()
    assert bytes(bits) == bits.to_bytes() and not bits.nbytes % (bits.width // 8)


def write_down(pair):
    endian = "little" if pair.order is Lsb0 else "big"
    assert pair.bits.to_bytes() == bitarray(pair.list, endian).tobytes()
    assert str(pair.bits.copy()) == str(pair.bits) == pair.list.to01()
    groups = repr(pair.bits).split("'")[1].removesuffix(" ..").split()
    assert "".join(groups) == pair.list.to01()[:64] and all(len(group) == 4 for group in groups[:-1])


def make(pair):
    text, order = pair.list.to01(), random.choice((Lsb0, Msb0))
    made = [Bits.from_string(text, order), Bits.from_bools(pair.list, order), Bits.from_bools(pair.bits.tolist()),
            pickle.loads(pickle.dumps(pair.bits)), copy.copy(pair.bits), copy.deepcopy(pair.bits)]
    assert all(str(it) == text for it in made) and repr(made[3]) == repr(made[4]) == repr(pair.bits)
    made[0].invert()
    assert str(made[0]) == (~pair.list).to01() and str(Bits.zeros(len(text), order)) == len(text) * "0"


OPERATIONS = [set_bit, fill_part, write_part, move_part, combine, combine_parts, combine_copies, shift, shift_copies, rotate, turn,
              flip, refill, ask, search, compare, number, step, grow, write_down, make]


def main():
    operations = int(sys.argv[1]) if len(sys.argv) > 1 else 10000
    random.seed(7)
    for turn_number in range(operations):
        if turn_number % 100 == 0:
            pair = Pair.drawn(random.choice([1, 7, 64, 65, random.randint(1, 600)]))
            outside = list(Bits(pair.memory, pair.order))
        operation = random.choice(OPERATIONS)
        operation(pair)
        wanted = outside[: pair.start] + pair.list.tolist() + outside[pair.start + len(pair.list) :]
        if str(Bits(pair.memory, pair.order)) != "".join("01"[bit] for bit in wanted):
            raise SystemExit(f"{operation.__name__} differs: {pair.bits!r}")
    print(f"beside bitarray: {operations} operations")


main()
