# README's code for Python.
from fehimbary import Bits, Msb0

header = bytearray(4)
bits = Bits(header, Msb0)
bits[3:7].store_be(5)
bits[7:16].store_be(300)
assert header == b"\x0b\x2c\0\0"
