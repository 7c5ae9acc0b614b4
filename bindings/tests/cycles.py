"""Programs whose garbage has bits of a memoryview, which CPython's collector may clear while it is exported: each runs in a process
of its own, and has to end by itself. Beside them, what bits hold of a memoryview that its user releases."""

import subprocess
import sys
import textwrap
import unittest

from fehimbary import Bits

HEAD = "import gc, io, mmap, weakref\nfrom multiprocessing.shared_memory import SharedMemory\nfrom fehimbary import Bits, Msb0\n"

PROGRAMS = {
    "an object that refers to itself": """
        class Page:
            def __init__(self, view):
                self.bits, self.me = Bits(view), self
        Page(memoryview(bytearray(64)))
        gc.collect()
    """,
    "a parent and a child, with no collection asked for": """
        shared = SharedMemory(create=True, size=64)
        class Node:
            def __init__(self, parent, view):
                self.parent, self.bits = parent, Bits(view)
        for _ in range(3000):
            parent = Node(None, shared.buf)
            parent.child = Node(parent, shared.buf)
        parent = None
        gc.collect()
        shared.close()
        shared.unlink()
    """,
    "an error that is kept": """
        def look(view):
            bits = Bits(view)
            try:
                bits[999]
            except IndexError as error:
                kept = error
        for _ in range(9):
            look(memoryview(bytearray(64)))
            gc.collect()
    """,
    "a closure that calls itself": """
        def make():
            bits = Bits(memoryview(bytearray(64)))
            def count(start):
                return 0 if start == len(bits) else bits[start] + count(start + 1)
            return count
        assert make()(500) == 0
        gc.collect()
    """,
    "the buffer of a BytesIO": """
        held = [Bits(io.BytesIO(bytes(64)).getbuffer())]
        held.append(held)
        del held
        gc.collect()
    """,
    "a bytearray that holds a memoryview of itself": """
        class Memory(bytearray):
            pass
        memory = Memory(64)
        memory.view = memoryview(memory)
        memory.bits = Bits(memory.view)
        del memory
        gc.collect()
    """,
    "a map of memory that holds a memoryview of itself": """
        class Memory(mmap.mmap):
            pass
        memory = Memory(-1, 4096)
        memory.view = memoryview(memory)
        memory.bits = Bits(memory.view)[3:]
        del memory
        gc.collect()
    """,
    "bits that hold a memoryview of themselves": """
        class Flags(Bits):
            pass
        flags = Flags(bytearray(64))
        flags.view = memoryview(flags)
        flags.bits = Bits(flags.view, Msb0)
        del flags
        gc.collect()
    """,
    "bits of bits": """
        held = [Bits(Bits(memoryview(bytearray(64))))]
        held.append(held)
        del held
        gc.collect()
    """,
    "a finalizer that reads the bits": """
        class Last:
            def __init__(self, view):
                self.bits, self.me = Bits(view), self
            def __del__(self):
                self.bits[3:5] = True
                seen.append(self.bits.count_ones())
        seen = []
        Last(memoryview(bytearray(64)))
        gc.collect()
        assert seen == [2]
    """,
}


class Cycles(unittest.TestCase):
    def test_garbage_is_collected_in_peace(self):
        for name, program in PROGRAMS.items():
            with self.subTest(name):
                ended = subprocess.run([sys.executable, "-c", HEAD + textwrap.dedent(program)], capture_output=True, text=True)
                # in development mode a BytesIO tells besides that it couldn't close itself while it was exported
                self.assertEqual(ended.returncode, 0, ended.stderr)

    def test_a_memoryview_may_be_released_under_its_bits(self):
        memory = bytearray(b"\x01" + bytes(63))
        view = memoryview(memory)
        bits, part = Bits(view), Bits(view)[3:9]
        view.release()
        part.fill(True)
        self.assertEqual((bits.ones(), memory[:2]), ([0, 3, 4, 5, 6, 7, 8], b"\xf9\x01"))
        self.assertRaises(BufferError, memory.append, 1)
        self.assertRaises(ValueError, Bits, view)
        del bits
        self.assertRaises(BufferError, memory.append, 1)
        del part
        memory.append(1)


if __name__ == "__main__":
    unittest.main()
