"""What the package for Python keeps to whatever it is handed: memory that is held and let go, threads, hostile arguments."""

import copy
import gc
import pickle
import signal
import sys
import threading
import time
import tracemalloc
import unittest
import weakref
from array import array

import numpy

from fehimbary import Bits, Lsb0, Msb0, Op, ReadOnly, Refused, RefusedIndex, Step


class Held(bytearray):
    """A memory that can refer to its own view."""


class NamedFlags(Bits):
    """Bits with something beside them."""

    def __init__(self, memory, name):
        super().__init__(memory, Msb0)
        self.name = name


def use(memory):
    """Most calls there are, on a memory of some bytes, with refused ones."""
    bits, other = Bits(memory), Bits(bytearray(memory), Msb0)
    for call in (lambda: bits[9999], lambda: bits[::0], lambda: bits.__setitem__(0, 2), lambda: bits.rotate_left(-1),
                 lambda: bits[:3].copy_from(other), lambda: bits.swap(other), lambda: memoryview(bits[1:]), lambda: Bits(bits[1:]),
                 lambda: Bits.from_string("012"), lambda: Bits.from_bools([0, 2]), lambda: Bits(array("b")), lambda: Bits("2"),
                 lambda: Bits(memory, 3), lambda: bits.run(Bits(b""), [Step(99, 0, 0)]), lambda: bits.load_le()):
        try:
            call()
        except (ValueError, IndexError, TypeError, OverflowError, BufferError):
            continue
        raise AssertionError("a call that isn't refused")
    bits[3:20] |= other[5:22]
    bits &= other
    bits[8:16] = bits[0:8]
    made = [bits & other, bits | other, bits ^ other, ~bits, bits << 3, bits >> 3, bits.copy(), bits[4:], Bits(bits), Bits.zeros(999)]
    made += [copy.copy(bits), copy.deepcopy(bits)]
    answers = [bits.ones(), bits.find(other), bits.tolist(), str(bits), repr(bits), bits.to_bytes(), bits == other, bits < other]
    return made, answers, bytes(memoryview(bits)), bits.run(Bits(bytearray(1)), [Step(Op.FILL, 0, 9)])


class Memories(unittest.TestCase):
    def test_references_are_let_go(self):
        memory = bytearray(100)
        before = sys.getrefcount(memory)
        bits = Bits(memory)
        self.assertEqual(sys.getrefcount(memory), before + 1)
        held = sys.getrefcount(bits)
        parts = [bits[place:] for place in range(10)] + [bits[3:][4:]]
        self.assertEqual((sys.getrefcount(memory), sys.getrefcount(bits)), (before + 1, held + len(parts)))
        del bits
        self.assertEqual(sys.getrefcount(memory), before + 1)
        del parts
        self.assertEqual(sys.getrefcount(memory), before)
        memory.append(1)

    def test_nothing_leaks(self):
        memory = bytearray(range(64))
        everything = sys.gettotalrefcount if hasattr(sys, "gettotalrefcount") else lambda: 0
        tracemalloc.start()
        for rounds in (20, 300):
            gc.collect()
            before, references = tracemalloc.get_traced_memory()[0], everything()
            for _ in range(rounds):
                use(memory)
            gc.collect()
        grown = tracemalloc.get_traced_memory()[0] - before
        tracemalloc.stop()
        self.assertLess((grown, everything() - references), (2000, 100))
        memory.append(1)

    def test_a_cycle_is_collected(self):
        memory = Held(8)
        memory.view = Bits(memory)[3:]
        gone = weakref.ref(memory)
        del memory
        gc.collect()
        self.assertIsNone(gone())

    def test_whole_elements_are_a_buffer(self):
        memory = bytearray(b"\x01\x02\x03\x04")
        bits = Bits(memory)
        with memoryview(bits) as whole, memoryview(bits[8:24]) as part:
            self.assertEqual((bytes(whole), bytes(part), whole.readonly), (bytes(memory), b"\x02\x03", False))
            part[0] = 255
            del bits
            with self.assertRaises(BufferError):
                memory.append(1)
        self.assertEqual(memory, b"\x01\xff\x03\x04")
        memory.append(1)
        self.assertEqual(bytes(Bits(array("H", [1, 2, 3]))[16:]), array("H", [2, 3]).tobytes())
        self.assertEqual((bytes(Bits.from_string("101")), numpy.frombuffer(Bits(b"\x05"), "u1").tolist()), (b"\x05", [5]))
        self.assertEqual(bytes(memoryview(Bits(b"")[:0])), b"")
        for bits in (Bits(bytearray(2))[1:], Bits(bytearray(2))[:9], Bits(array("H", [1, 2]))[8:], Bits.zeros(9)[:4], Bits.zeros(9)):
            self.assertRaises(BufferError, memoryview, bits)
        self.assertTrue(memoryview(Bits(b"12")).readonly)
        self.assertRaises(TypeError, memoryview(Bits(b"12")).__setitem__, 0, 1)

    def test_bits_that_grow_stay_where_they_are_while_something_else_runs(self):
        bits = Bits.zeros(400)

        class Changes:
            def __init__(self, change):
                self.change = change

            def __index__(self):
                self.change()
                return 1

            def __eq__(self, right):
                self.change()
                return right == 1

            def __iter__(self):
                self.change()
                return iter([1])

            def __len__(self):
                return 1

            __hash__ = None

        change = [bits.clear, lambda: bits.extend(9000 * [0]), lambda: bits.resize(3)]
        for number in range(60):
            it = Changes(change[number % 3])
            for call in (lambda: bits[it], lambda: bits[it:], lambda: bits[::it], lambda: bits.__setitem__(0, it), lambda: bits.__setitem__(it, 1),
                         lambda: bits.__setitem__(slice(None, 2), it), lambda: bits.__setitem__(slice(it, None, it), it), lambda: bits.insert(it, it),
                         lambda: bits.append(it), lambda: bits.extend(it), lambda: bits.pop(it), lambda: bits.__delitem__(it),
                         lambda: bits.__delitem__(slice(it, None, 2)), lambda: bits.find(it), lambda: bits.find(1, it), lambda: bits.count(it),
                         lambda: bits.resize(it, it), lambda: bits.fill(it), lambda: bits.replace(it, it), lambda: bits << it,
                         lambda: bits.rotate_left(it), lambda: bits.__imul__(it), lambda: bits + it, lambda: bits.copy_within(it, it, it)):
                try:
                    call()
                except (ValueError, IndexError):
                    pass
                if number % 5 == 0:
                    bits.resize(100)
        walk = iter(bits)
        bits.clear()
        self.assertEqual(list(walk), [])

    def test_bits_of_bits_are_dropped_in_any_depth(self):
        bits = Bits(bytearray(8))
        for _ in range(10**6):
            bits = Bits(bits)
        for other in (memoryview, numpy.frombuffer):
            bits = Bits(bytearray(8))
            for _ in range(10**5 if other is memoryview else 10**4):
                bits = Bits(other(bits) if other is memoryview else other(bits, "u1"))
        del bits
        bits = Bits.zeros(64)
        self.assertRaises(TypeError, bits.__init__, bits)
        empty = Bits.__new__(Bits)
        self.assertRaises(TypeError, empty.__init__, empty)

    def test_a_search_can_be_interrupted(self):
        bits, needle = Bits.zeros(2**24), Bits.zeros(2**16)
        needle[-1] = True
        began = time.monotonic()
        signal.signal(signal.SIGALRM, lambda *_: 1 / 0)
        signal.setitimer(signal.ITIMER_REAL, 0.2)
        self.assertRaises(ZeroDivisionError, bits.find, needle)
        self.assertLess(time.monotonic() - began, 10)

    def test_arrays_of_numpy(self):
        bits = Bits(bytearray(b"\x01\x02"))
        self.assertEqual(numpy.array(bits[:8]).tolist(), [1])
        for part in (bits[:7], bits[1:], Bits.zeros(9)):
            self.assertRaisesRegex(TypeError, "to_numpy", numpy.array, part)
            self.assertRaisesRegex(TypeError, "to_numpy", numpy.asarray, part, bool)

    def test_a_view_of_a_view(self):
        inner = Bits.zeros(64)
        outer = Bits(inner[8:24], Msb0)
        outer[0] = True
        self.assertEqual(inner.ones(), [15])
        del inner
        self.assertEqual(outer.ones(), [0])


class Conversions(unittest.TestCase):
    def test_numpy(self):
        for order in (Lsb0, Msb0):
            for text in ("", "1", "0110", 9 * "01101000"):
                array_of_bits = numpy.array([digit == "1" for digit in text], bool)
                bits = Bits.from_numpy(array_of_bits, order)
                self.assertEqual((str(bits), bits.to_numpy().tolist(), bits.to_numpy().dtype), (text, array_of_bits.tolist(), bool))
        Bits.zeros(3).to_numpy()[0] = True
        self.assertEqual(str(Bits.from_numpy(numpy.array([1, 0, 0, 1], bool)[::3])), "11")
        for kind in ("u1", "i8", "u4"):
            self.assertEqual(str(Bits.from_numpy(numpy.array([0, 1, 1, 0, 1], kind), Msb0)), "01101")
            self.assertRaises(ValueError, Bits.from_numpy, numpy.array([0, 1, 2], kind))
        for wrong in (numpy.zeros(3), numpy.zeros((2, 2), bool), numpy.zeros(3, "S1")):
            self.assertRaises(TypeError, Bits.from_numpy, wrong)
        for start, stop in ((0, 9), (3, 3), (5, 40), (8, 16)):
            part = Bits(bytearray(b"\x12\x34\x56\x78\x9a"), Msb0)[start:stop]
            self.assertEqual(part.to_numpy().tolist(), [digit == "1" for digit in f"{0x123456789a:040b}"[start:stop]])

    def test_texts_and_truths(self):
        self.assertEqual(repr(Bits.from_string("01 0\n1", Msb0)), "Bits('0101', Msb0, u8)")
        self.assertEqual((str(Bits.from_string(numpy.str_("0 1"))), str(Bits.zeros(1) + numpy.str_("11"))), ("01", "011"))
        self.assertEqual((Bits.from_bools([True, 0, numpy.True_]).tolist(), Bits.zeros(3).tolist()), ([True, False, True], 3 * [False]))
        for text in ("2", "0_1", "+1", "0x1", "0b1", "٠١"):
            self.assertRaises(ValueError, Bits.from_string, text)
        for wrong in ([2], ["1"], [None]):
            self.assertRaises(ValueError, Bits.from_bools, wrong)
        for call in (lambda: Bits.from_bools(3), lambda: Bits.from_string(b"01"), lambda: Bits.zeros("1"), lambda: Bits.zeros(1.0)):
            self.assertRaises((TypeError, AttributeError), call)
        self.assertRaises(OverflowError, Bits.zeros, -1)
        for length in (2**62, 2**63, 2**64 - 1):
            self.assertRaises(MemoryError, Bits.zeros, length)

    def test_find(self):
        bits = Bits.zeros(5000)
        for place in (0, 63, 64, 200, 4991):
            bits[place : place + 9] = Bits.from_string("101101101")
            self.assertEqual(bits.find(Bits.from_string("101101101", Msb0)), place)
            bits.fill(False)
        self.assertEqual((bits.find(Bits.from_string("1")), bits.find(bits), bits.find(Bits.zeros(0)), Bits.zeros(0).find(bits)),
                         (None, 0, 0, None))

    def test_pickles_and_copies(self):
        for bits in (Bits.zeros(0), Bits(array("I", [0xF0F0F0F1]), Msb0)[3:29], Bits(b"\x5a\xa5")):
            for made in (pickle.loads(pickle.dumps(bits)), copy.copy(bits), copy.deepcopy(bits), bits.copy()):
                self.assertEqual((repr(made), type(made)), (repr(bits), Bits))
                made.fill(True)

    def test_a_pickle_of_something_else(self):
        restored = pickle.loads(pickle.dumps(Bits.zeros(3))).__reduce__()[0]
        for arguments in ((b"", 99, 0, 7), (b"", 99, 0, 0), (b"", 99, 2, 8), (3, 1, 0, 8)):
            self.assertRaises((ValueError, TypeError), restored, *arguments)
        self.assertEqual(len(restored(b"\xff", 99, Msb0, 64)), 8)


class Hostile(unittest.TestCase):
    def test_indices(self):
        bits = Bits(bytearray(8))
        for index in (64, -65, 2**31, 2**63 - 1, -(2**63), 2**63, 2**64, 2**200, -(2**200)):
            for call in (lambda: bits[index], lambda: bits.__setitem__(index, 1), lambda: bits.replace(index, 1),
                         lambda: bits.swap_bits(0, index)):
                self.assertRaises(RefusedIndex, call)
        for wrong in ("0", 1.0, None, {0}, (0,)):
            self.assertRaises(TypeError, lambda: bits[wrong])
        for part in (slice(2**200), slice(-(2**200), None), slice(None, None, 1)):
            self.assertEqual(len(bits[part]), 64)
        self.assertRaises(ValueError, lambda: bits[::0])
        self.assertRaises(ValueError, lambda: bits.__setitem__(slice(None, None, 0), 1))
        for step, length in ((2, 32), (-1, 64), (2**200, 1), (-(2**200), 1), (2**63 - 1, 1), (-(2**63), 1)):
            self.assertEqual(len(bits[::step]), length)
        self.assertRaises(TypeError, lambda: bits["a":])
        for by in (2**63, 2**64, 2**200):
            self.assertEqual((bits >> by, bits << by), (bits, bits))
        self.assertRaises(OverflowError, lambda: bits >> -1)

    def test_what_is_no_view(self):
        bits = Bits(bytearray(8))
        for wrong in (None, 1, "1", b"1", object()):
            for name in ("copy_from", "swap", "starts_with", "ends_with", "count_and", "isdisjoint", "issubset"):
                self.assertRaises(TypeError, getattr(bits, name), wrong)
            for name in ("__and__", "__ior__", "__lt__", "__eq__"):
                self.assertIs(getattr(bits, name)(wrong), NotImplemented)
            self.assertRaises(TypeError, bits.run, wrong, [])
            self.assertRaises(TypeError, bits.run, Bits(b""), [wrong])
            self.assertRaises(TypeError, lambda: wrong << bits)
        self.assertRaises(TypeError, hash, bits)
        self.assertRaises(ValueError, bits.find, None)
        with self.assertRaises(BufferError):
            del bits[0]
        with self.assertRaises(AttributeError):
            bits.name = 1

    def test_arguments_that_do_something_else_meanwhile(self):
        memory = bytearray(8)
        bits = Bits(memory)

        class Index:
            def __index__(self):
                with self.test.assertRaises(BufferError):
                    memory.clear()
                raise KeyError

            def __eq__(self, right):
                raise KeyError

        Index.test = self
        for call in (lambda: bits[Index()], lambda: bits[Index() :], lambda: bits.rotate_left(Index()), lambda: bits << Index(),
                     lambda: bits.store_le(Index()), lambda: bits.fill(Index()), lambda: bits.__setitem__(0, Index())):
            self.assertRaises(KeyError, call)
        self.assertEqual(bits.count_ones(), 0)

    def test_steps_that_are_not_as_many_as_they_say(self):
        class Steps(list):
            def __len__(self):
                return 2

        bits = Bits(bytearray(8))
        self.assertEqual([len(bits.run(Bits(b""), Steps(number * [Step(Op.FILL, 0, 64)]))) for number in range(4)], [0, 1, 2, 3])

    def test_bits_without_a_memory(self):
        bits = Bits.__new__(Bits)
        self.assertEqual((len(bits), list(bits), repr(bits), bits.copy(), bits[1:], bits.ones(), bytes(bits)),
                         (0, [], "Bits('', Lsb0, u8)", bits, bits, [], b""))
        self.assertRaises(Refused, bits.load_le)
        bits.__init__(bytearray(b"\x01"))
        self.assertEqual(bits.ones(), [0])
        for made in (bits, bits[2:], bits.copy()):
            self.assertRaises(TypeError, made.__init__, bytearray(9))

    def test_memories_of_no_elements(self):
        for memory in (b"", bytearray(), array("Q"), numpy.zeros(0, "u2"), numpy.zeros((0, 3), "u4"), memoryview(b"")):
            bits = Bits(memory, Msb0)
            self.assertEqual((len(bits), bits.count_ones(), bits.first_one(), bits.all(), str(bits & bits), bits.tolist()),
                             (0, 0, None, True, "", []))

    def test_memories_that_are_none(self):
        for memory in (numpy.zeros((4, 4), "u1")[:, 1:3], numpy.zeros(4, "u1")[::-1], numpy.zeros((2, 2), "u2").T, numpy.zeros(2, "i8"),
                       numpy.zeros(2, "c16"), numpy.zeros(2, "S3"), numpy.zeros(2, "u1,u2"), array("d", [1]), array("u", "a"), 5.0, True, None):
            with self.assertRaises(TypeError):
                Bits(memory)
        self.assertRaises(TypeError, Bits)
        with self.assertRaises(ReadOnly):
            Bits(b"1").invert()

    def test_a_subclass(self):
        class Flags(Bits):
            def __init__(self, memory, name):
                super().__init__(memory, Msb0)
                self.name = name

            def __len__(self):
                return 10**9

        flags = Flags(bytearray(2), "some")
        flags[3:9] = True
        self.assertEqual((flags.name, str(flags), flags.count_ones(), type(flags[1:]), type(~flags), type(flags.copy())),
                         ("some", "0001111110000000", 6, Bits, Flags, Flags))
        self.assertRaises(RefusedIndex, lambda: flags[16])
        flags &= Bits(b"\xff")
        self.assertEqual((type(flags), flags == Bits(b"\xf8\x00")[:16]), (Flags, True))
        held = pickle.loads(pickle.dumps(NamedFlags(bytearray(b"\x05"), "some")))
        self.assertEqual((type(held), held.name, str(held)), (NamedFlags, "some", "00000101"))


class Threads(unittest.TestCase):
    def test_threads_share_a_view(self):
        bits, failed = Bits.zeros(4 * 64), []

        def work(number):
            mine = bits[64 * number : 64 * (number + 1)]
            try:
                for turn in range(3000):
                    mine.invert()
                    mine[turn % 64] ^= True
                    mine ^= Bits.from_string("1").copy()
                    assert bits.count_ones() <= len(bits) and mine == mine.copy() and len(bits[number:].ones()) <= 256
            except BaseException as error:
                failed.append(error)

        threads = [threading.Thread(target=work, args=(number,)) for number in range(4)]
        for thread in threads:
            thread.start()
        for thread in threads:
            thread.join()
        alone = Bits.zeros(64)
        for turn in range(3000):
            alone.invert()
            alone[turn % 64] ^= True
            alone[0] ^= True
        self.assertEqual((failed, [bits[64 * number : 64 * (number + 1)] == alone for number in range(4)]), ([], 4 * [True]))

    def test_the_lock_is_given_back(self):
        """Other threads run while a long call does; a length is refused meanwhile, and no answer is wrong."""
        bits, other, needle = Bits.zeros(2**24), Bits.zeros(2**24), Bits.zeros(2**12)
        needle[-1] = True
        calls = {
            "find": lambda: bits.find(needle) is None, "count": lambda: bits.count_ones() == 0, "copy": lambda: len(bits.copy()) == 2**24,
            "and": lambda: not (bits & other).any(), "fill": lambda: not bits.fill(False).any(), "reverse": lambda: not bits.reverse().any(),
            "str": lambda: str(bits[: 2**20]).count("1") == 0, "indices": lambda: len(bits.indices()) == 0, "==": lambda: bits == other,
        }
        for name, call in calls.items():
            ended, refused = threading.Event(), [0]

            def watch():
                while not ended.is_set():
                    try:
                        bits.append(True)
                        bits.pop()
                    except BufferError:
                        refused[0] += 1
                    time.sleep(0.0001)

            interval = sys.getswitchinterval()
            sys.setswitchinterval(1000)  # so that a thread runs only where another one gives the lock back
            thread = threading.Thread(target=watch)
            try:
                thread.start()
                began = time.perf_counter()
                answers = []
                while not refused[0] and time.perf_counter() - began < 20:
                    answers.append(call())
                self.assertTrue(all(answers), name)
                self.assertTrue(refused[0], name)
            finally:
                ended.set()
                sys.setswitchinterval(interval)
                thread.join()
            if len(bits) != 2**24:
                bits.resize(2**24)


if __name__ == "__main__":
    unittest.main()
