"""What programs of the package `bitarray` know, on Bits: masks, lists of indices, prefix codes, files, and the modules beside them.

Expected values are by hand, or of lists of bits."""

import contextlib
import copy
import ctypes
import io
import pickle
import random
import sys
import unittest
from array import array

import fehimbary.bitarray
from fehimbary import Bits, FrozenBits, Lsb0, Msb0, ReadOnly, Refused, RefusedIndex, Status, util
from fehimbary.bitarray import bitarray, frozenbitarray

CODE = {"a": Bits("0"), "b": Bits("10"), "c": Bits("110", Msb0), "d": Bits("111")}


def kinds(values):
    """These bits in memories of all kinds, and in a part of one."""
    for code, order in [("B", Lsb0), ("B", Msb0), ("H", Msb0), ("Q", Lsb0)]:
        bits = Bits(array(code, [random.getrandbits(8)] * (len(values) // 8 + 9)), order)[3 : 3 + len(values)]
        bits[:] = values
        yield bits
    yield Bits(values)
    yield Bits(values, Msb0)


class Making(unittest.TestCase):
    def test_lengths_texts_and_iterables(self):
        for order in (Lsb0, Msb0):
            made = [Bits(5, order), Bits("0 1101", order), Bits([0, True, 1], order), Bits((1, 0), order), Bits({1: 0}, order), Bits(range(2), order)]
            self.assertEqual([(str(it), it.order) for it in made], [(text, order) for text in ("00000", "01101", "011", "10", "1", "01")])
        bits = Bits(it == 3 for it in range(5))
        bits.append(1)
        self.assertEqual((str(bits), bits.readonly, len(Bits(0))), ("000101", False, 0))
        for wrong in (True, None, 1.5, object(), [2], [None], "2", -1, 2**64):
            self.assertRaises((TypeError, ValueError, OverflowError), Bits, wrong)

    def test_bits_that_have_some_take_no_others(self):
        bits = Bits(3)
        self.assertRaises(TypeError, bits.__init__, "11")
        empty = Bits(0)

        def grows():
            empty.append(1)
            yield 0

        self.assertRaises(TypeError, empty.__init__, grows())
        self.assertEqual((str(bits), str(empty)), ("000", "1"))


class Selections(unittest.TestCase):
    def test_as_of_lists(self):
        for length in (0, 1, 7, 8, 64, 100):
            values = [random.getrandbits(1) for _ in range(length)]
            picks = [random.randrange(-length, length) for _ in range(length // 2)]
            mask = [random.getrandbits(1) for _ in range(length)]
            chosen = [place for place in range(length) if mask[place]]
            for bits in kinds(values):
                key = Bits(mask, random.choice((Lsb0, Msb0)))
                self.assertEqual(list(bits[picks]), [values[place] for place in picks])
                self.assertEqual(list(bits[key]), [values[place] for place in chosen])
                self.check_writes(bits, values, picks, picks)
                self.check_writes(bits, values, key, chosen)

    def check_writes(self, bits, values, key, places):
        for value in (True, 0, [random.getrandbits(1) for _ in places], "".join(random.choice("01") for _ in places)):
            bits[:], wanted = values, list(values)
            bits[key] = value
            for turn, place in enumerate(places):
                wanted[place] = int(value[turn]) if hasattr(value, "__iter__") else value
            self.assertEqual(list(bits), wanted)

    def test_taken_away(self):
        for length in (0, 9, 64, 100):
            values, mask = ([random.getrandbits(1) for _ in range(length)] for _ in range(2))
            gone = [random.randrange(-length, length) for _ in range(length // 3)]
            for order in (Lsb0, Msb0):
                for key, left in ((gone, set(range(length)) - {place % length for place in gone}), (Bits(mask), [it for it in range(length) if not mask[it]])):
                    bits = Bits(values, order)
                    del bits[key]
                    self.assertEqual(list(bits), [values[place] for place in sorted(left)])

    def test_refused(self):
        bits = Bits("10110")
        for key in ([5], [0, -6], [2**70]):
            for call in (lambda: bits[key], lambda: bits.__setitem__(key, 0), lambda: bits.__setitem__(key, "00"[: len(key)]), lambda: bits.__delitem__(key)):
                self.assertRaises(RefusedIndex, call)
        for key, value, kind in (([True], 1, TypeError), ([1.0], 1, TypeError), ([None], 1, TypeError), (Bits(4), 1, Refused), (Bits(6), 1, Refused),
                                 ([0, 1], "1", Refused), (Bits("11000"), "111", Refused), ([0], 2, ValueError), (Bits(5), 2, ValueError)):
            self.assertRaises(kind, bits.__setitem__, key, value)
        for key in ((0, 1), {0}, "0", 1.0):
            self.assertRaises(TypeError, lambda: bits[key])
        part = bits[1:]
        for key in ([0], Bits("1000")):
            self.assertRaises(BufferError, part.__delitem__, key)
            self.assertRaises(ReadOnly, FrozenBits("1011").__setitem__, key, 0)
        self.assertEqual((str(bits), type(FrozenBits("101")[[0, 1]]), str(bits[[True + 1, -1]])), ("10110", FrozenBits, "10"))

    def test_code_that_runs_inside(self):
        class Grows:
            def __index__(self):
                with contextlib.suppress(BufferError):
                    bits.extend(5000 * "1")
                return 0

        class Shrinks:
            def __index__(self):
                with contextlib.suppress(BufferError):
                    bits.clear()
                return 4

        for kind in (Grows, Shrinks):
            for call in (lambda: bits[[kind(), 1]], lambda: bits.__setitem__([kind(), 1], True), lambda: bits.__delitem__([kind(), 1]),
                         lambda: bits.invert(kind()), lambda: bits.bytereverse(kind()), lambda: bits.__setitem__([1, 2], (kind() and 0 for _ in (1, 2)))):
                bits = Bits(9)
                with contextlib.suppress(IndexError, ValueError, BufferError):
                    call()
                bits.count_ones()


class Editing(unittest.TestCase):
    def test_single_edits(self):
        for bits in kinds([0, 0, 1, 1, 0, 1, 0]):
            bits.invert(0).invert(-1)
            self.assertEqual(str(bits), "1011011")
            bits.invert(slice(1, None, 2))
            self.assertEqual(str(bits), "1110001")
            bits.invert(slice(5)).sort()
            self.assertEqual((str(bits), str(bits.sort(reverse=True))), ("0000111", "1110000"))
            self.assertRaises(IndexError, bits.invert, 7)
            self.assertRaises(TypeError, bits.invert, "1")
        bits = Bits("001011")
        bits.remove(True)
        bits.remove(0)
        self.assertEqual(str(bits), "0011")
        self.assertRaises(ValueError, Bits("11").remove, 0)

    def test_bytes_are_turned(self):
        for text, arguments, turned in [("11100000 00000011 00111", (), "00000111 11000000 00011"), ("11100000 00000011 0011", (1,), "11100000 11000000 0000"),
                                        ("11100000 00000011 00111111", (0, -1), "00000111 11000000 00111111"), ("11100000", (1, 0), "11100000"), ("", (), "")]:
            for bits in kinds([int(digit) for digit in text.replace(" ", "")]):
                self.assertEqual(str(bits.bytereverse(*arguments)), turned.replace(" ", ""))

    def test_info(self):
        memory = (ctypes.c_uint16 * 3)()
        bits = Bits(memory, Msb0)
        self.assertEqual(bits.buffer_info(), (ctypes.addressof(memory), 6, Msb0, 0, 0, False, True, 0))
        own = Bits(13)
        part = own[1:]
        self.assertEqual(own.buffer_info()[1:], (2, Lsb0, 3, 64, False, False, 1))
        self.assertEqual(part.buffer_info()[0], own.buffer_info()[0])
        self.assertEqual(FrozenBits("1").buffer_info()[5:7], (True, False))
        self.assertGreater(sys.getsizeof(Bits(80000)), 10000)
        self.assertLess(sys.getsizeof(Bits(8)), 300)


class Packing(unittest.TestCase):
    def test_bytes_for_bits(self):
        bits = Bits("01")
        bits.pack(b"\0\1\xff")
        bits.pack(array("B", [0, 7]))
        self.assertEqual((str(bits), bits.unpack(), bits.unpack(b"-", one=b"x")), ("0101101", b"\0\1\0\1\1\0\1", b"-x-xx-x"))
        for call in (lambda: bits.pack("1"), lambda: bits.pack(1), lambda: bits.unpack(b""), lambda: bits.unpack("0"), lambda: bits.unpack(one=b"11")):
            self.assertRaises(TypeError, call)

    def test_files(self):
        for order, text in ((Lsb0, "1000000001000000"), (Msb0, "0000000100000010")):
            file, bits = io.BytesIO(b"\x01\x02\x03"), Bits("1", order)
            bits.fromfile(file, 2)
            self.assertEqual(str(bits), "1" + text)
            self.assertRaises(EOFError, bits.fromfile, file, 2)
            self.assertEqual(len(bits), 25)
            bits.fromfile(file)
            out = io.BytesIO()
            bits[1:].tofile(out)
            self.assertEqual(out.getvalue(), b"\x01\x02\x03")
        self.assertRaises(TypeError, Bits(0).fromfile, io.StringIO("1"))
        self.assertRaises(TypeError, Bits(0).fromfile, file, None)

    def test_prefix_codes(self):
        bits = Bits("1")
        bits.encode(CODE, "abcd")
        self.assertEqual(str(bits), "1010110111")
        self.assertEqual((bits[1:].decode(CODE), list(bits[1:].iterdecode(CODE))), (list("abcd"), list("abcd")))
        self.assertEqual((Bits("0").decode({None: Bits("0")}), Bits(0).decode(CODE)), ([None], []))
        steps = Bits("0011").iterdecode(CODE)
        self.assertEqual((next(steps), next(steps)), ("a", "a"))
        with self.assertRaisesRegex(ValueError, "incomplete .* 2"):
            next(steps)
        with self.assertRaisesRegex(ValueError, r"unrecognized .* 2 \.\. 3"):
            Bits("0011").decode({"a": Bits("0"), "b": Bits("10")})
        for wrong in ({}, {"a": Bits(0)}, {"a": Bits("1"), "b": Bits("1")}, {"a": Bits("1"), "b": Bits("10")}, {"a": Bits("10"), "b": Bits("1")}):
            self.assertRaises(ValueError, Bits(0).decode, wrong)
        for wrong in (None, [], {"a": "1"}, {"a": 1}):
            self.assertRaises(TypeError, bits.decode, wrong)
        for code, symbols, kind in ((CODE, "ax", ValueError), (CODE, 1, TypeError), (CODE, [[]], TypeError), ({"a": "1"}, "a", TypeError), ({"a": Bits(0)}, "a", ValueError)):
            self.assertRaises(kind, bits.encode, code, symbols)
        self.assertEqual(str(bits), "1010110111")


class Util(unittest.TestCase):
    def test_made(self):
        self.assertEqual((str(util.ones(3)), util.ones(9, Msb0).order, len(util.urandom(77, Msb0))), ("111", Msb0, 77))
        self.assertTrue(300 < util.urandom(1000).count_ones() < 700)
        for k in (0, 1, 40, 99, 100):
            self.assertEqual((util.random_k(100, k).count_ones(), len(util.random_k(100, k, Msb0))), (k, 100))
        self.assertRaises(ValueError, util.random_k, 3, 4)
        primes = [2, 3, 5, 7, 11, 13, 17, 19, 23, 29, 31, 37, 41, 43, 47]
        for length in range(50):
            self.assertEqual(list(util.gen_primes(length).ones()), [it for it in primes if it < length])
            self.assertEqual(list(util.gen_primes(length, odd=True).ones())[:14], [it // 2 for it in primes[1:] if it // 2 < length])

    def test_told(self):
        bits, other = Bits("00101100"), Bits("01101010", Msb0)
        self.assertEqual([str(util.strip(bits, mode)) for mode in ("left", "right", "both")], ["101100", "001011", "1011"])
        self.assertEqual((str(util.strip(Bits(4))), util.parity(bits), util.parity(other), util.count_or(bits, other)), ("", 1, 0, 5))
        self.assertEqual(util.count_or(Bits("10"), Bits("0111")), 2)
        self.assertEqual([util.count_n(bits, n) for n in range(4)] + [util.count_n(bits, 5, 0)], [0, 3, 5, 6, 8])
        self.assertRaises(ValueError, util.count_n, bits, 4)
        self.assertEqual(list(util.intervals(bits)), [(0, 0, 2), (1, 2, 3), (0, 3, 4), (1, 4, 6), (0, 6, 8)])
        self.assertEqual((util.sum_indices(bits), util.sum_indices(bits, 2), util.xor_indices(bits)), (11, 45, 3))
        self.assertRaises(ValueError, util.strip, bits, "up")

    def test_digits_and_bytes(self):
        for n, order, text, digits in [(2, Lsb0, "011", "011"), (4, Msb0, "110001", "301"), (8, Lsb0, "110001", "34"), (16, Msb0, "11110001", "f1"),
                                       (16, Lsb0, "11110001", "f8"), (32, Msb0, "1111100001", "7B"), (64, Msb0, "111111000001", "/B")]:
            self.assertEqual((util.ba2base(n, Bits(text, order)), str(util.base2ba(n, digits, order))), (digits, text))
        self.assertEqual(str(util.base2ba(16, "A", Msb0)), "1010")
        for call in (lambda: util.ba2base(16, Bits(3)), lambda: util.ba2base(3, Bits(3)), lambda: util.base2ba(4, "4"), lambda: util.base2ba(32, "1")):
            self.assertRaises(ValueError, call)
        for bits, data in ((Bits("1"), b"\x07\x01"), (Bits("10000111110110", Msb0), b"\x12\x87\xd8"), (Bits(0), b"\0")):
            back = util.deserialize(data)
            self.assertEqual((util.serialize(bits), back, back.order), (data, bits, bits.order))
        for wrong in (b"", b"\x08\0", b"\x01", b"\x20\0", b"\x80"):
            self.assertRaises(ValueError, util.deserialize, wrong)

    def test_printed(self):
        out = io.StringIO()
        util.pprint(Bits("0101", Msb0), out)
        util.pprint(Bits(20), out, group=4, indent=2, width=12)
        self.assertEqual(out.getvalue(), "Bits('0101', Msb0)\nBits('''\n  0000 0000\n  0000 0000\n  0000\n''', Lsb0)\n")


class DropIn(unittest.TestCase):
    """What the suite of `bitarray` doesn't ask."""

    def test_pickles_name_this_package(self):
        for made in (bitarray("0110"), frozenbitarray("011")):
            for back in (pickle.loads(pickle.dumps(made)), copy.deepcopy(made)):
                self.assertEqual((back, type(back), back.endian()), (made, type(made), "big"))
        self.assertIn(b"fehimbary.bitarray", pickle.dumps(bitarray))

    def test_a_bitarray_answers_as_bits_do(self):
        for values in ([], [1], [0, 1, 1, 0, 1, 0, 0, 1, 1]):
            bits, other = Bits(values, Msb0), bitarray(values, "big")
            for call in (lambda it: list(it.ones()), Bits.to_int, Bits.hex, Bits.first_one, Bits.last_zero, lambda it: it.issuperset(it), Bits.to_bytes,
                         lambda it: it.findall(1), lambda it: it.count(Bits("01")), lambda it: list(it.to_numpy()), lambda it: it.unpack(), len,
                         lambda it: it.count_and(it), lambda it: it.starts_with(Bits(0)), lambda it: it * 2, lambda it: ~it, lambda it: it[[0] * len(it)]):
                self.assertEqual(call(other), call(bits))
            made = [bitarray.from_int(5, 9, Msb0), bitarray.from_hex("0280", Msb0)[:9], bitarray.from_bytes(b"\x02\x80", Msb0)[:9], bitarray(Bits("000000101"))]
            self.assertEqual([(str(it), type(it)) for it in made], 4 * [("bitarray('000000101')", bitarray)])

    def test_hashes(self):
        self.assertEqual({frozenbitarray("01"): 1}[FrozenBits("01")], 1)
        self.assertEqual(hash(frozenbitarray("01", "little")), hash(frozenbitarray([0, 1], "big")))

    def test_slices_that_grow_and_shrink(self):
        for _ in range(300):
            values, new = ([random.getrandbits(1) for _ in range(random.randrange(20))] for _ in range(2))
            bits, part = bitarray(values), slice(random.randrange(-3, 20), random.randrange(-3, 20))
            bits[part] = bitarray(new, "little")
            values[part] = new
            self.assertEqual(list(bits), values)

    def test_a_buffer_has_the_whole_last_byte(self):
        bits = bitarray("101", "little")
        with memoryview(bits) as view:
            view[0] = 0xFF
            self.assertEqual((bits, view.nbytes), (bitarray("111"), 1))
            self.assertRaises(BufferError, bits.append, 0)
        bits.extend("00")
        bits.append(0)
        self.assertEqual((bits.tobytes(), bits.fill()), (b"\x07", 2))
        self.assertRaises(BufferError, Bits, bits[:3])
        self.assertRaises(BufferError, memoryview, Bits(3))
        frozen = frozenbitarray("101")
        self.assertEqual((memoryview(frozen).readonly, bytes(memoryview(frozen))), (True, b"\xa0"))

    def test_a_buffer_that_goes_keeps_an_exception(self):
        for kind in (Bits, type("Plain", (Bits,), {}), bitarray, type("Own", (bitarray,), {})):
            with self.assertRaises(KeyError):
                print(memoryview(kind(8)), {}["none"])

    def test_names(self):
        self.assertEqual(sorted(fehimbary.bitarray.__all__), ["bitarray", "bits2bytes", "decodetree", "frozenbitarray"])
        self.assertEqual(Status.LENGTH.name, "LENGTH")


if __name__ == "__main__":
    unittest.main()
