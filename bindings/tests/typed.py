"""What the stubs of the package take, since it runs."""

import numpy

from fehimbary import Bits, FrozenBits, Order

bits = Bits.zeros(9)
bits[0] = 1
bits[0:3] = 0
bits[0:3] = "011"
bits[::2] = [True, 0, 1, numpy.True_, 1]
bits[1] = numpy.True_
bits.fill(0)
bits += Bits.from_bools([1, 0])
counts: int = bits.count("01") + bits.count(numpy.True_)
frozen: FrozenBits = ~FrozenBits(bits)
order: Order = {frozen: frozen.order}[frozen]
