"""Compares the picture of examples/life.py with a plain model, which counts the neighbours of each place: life.py PICTURE."""

import pathlib
import sys
import zlib

import numpy

sys.path.insert(0, str(pathlib.Path(__file__).resolve().parent.parent / "examples"))
import life


def later(places):
    """The places a step later."""
    neighbours = sum(numpy.roll(places, (down, right), (0, 1)) for down in (-1, 0, 1) for right in (-1, 0, 1)) - places
    return ((neighbours == 3) | (places & (neighbours == 2))).astype("u1")


def pixels(png):
    """The pixels of a PNG of one bit each, whose lines aren't filtered and stand in one chunk."""
    start = png.index(b"IDAT")
    lines = zlib.decompress(png[start + 4 : start + 4 + int.from_bytes(png[start - 4 : start], "big")])
    return numpy.unpackbits(numpy.frombuffer(lines, "u1").reshape(life.SIZE, -1)[:, 1:], axis=1)


places = numpy.unpackbits(numpy.frombuffer(life.soup(), "u1")).reshape(life.SIZE, life.SIZE)
for _ in range(100):
    places = later(places)
if not (pixels(pathlib.Path(sys.argv[1]).read_bytes()) == places).all():
    raise SystemExit("life differs")
print(f"life: the picture is that of the plain model, {places.sum()} live")
