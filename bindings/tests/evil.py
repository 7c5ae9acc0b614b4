"""Calls each method of Bits with operands that run code at the worst moment: evil.py [SHARE [WORD]].

The methods are those that the class has, so that a new one is tried too; with a WORD, those whose names have it. What they are
given acts when it is asked for an index, for its items, whether it is equal or for an attribute; garbage acts when the collector,
which runs at each object that is made, finds it; so does a class of bits when it is asked for an attribute. To act is to give
each operand another length, to clear it, to make it anew and to let its memory go. A call may refuse, and nothing else; what is wrong in a memory is seen by
the sanitizer of addresses or by a Python with debug checks, in which this is run."""

import copy
import gc
import itertools
import pickle
import random
import sys

from fehimbary import Bits, FrozenBits, Lsb0, Msb0, Op, Step

REFUSALS = (ValueError, TypeError, IndexError, KeyError, BufferError, OverflowError, MemoryError, AttributeError, NotImplementedError)
# What every object has, and acts on no bits.
OTHERS = {"__class__", "__new__", "__init_subclass__", "__subclasshook__", "__dir__", "__setattr__", "__delattr__", "__getattribute__"}
TIMES = (12, 12, 3, 1)  # of calls with so many arguments
LENGTHS = (0, 1, 9, 64, 65, 500, 520, 5000)


class Scene:
    """Some bits, and what is done to them while a call runs."""

    def __init__(self, draw):
        self.draw, self.acts, self.is_acting = draw, 0, False
        self.memory = bytearray(draw.randbytes(draw.choice((1, 8, 80))))
        self.views = [memoryview(self.memory)]
        self.bits = [self.own(kind) for kind in (Bits, Bits, Noticing)] + [Bits(self.views[0], draw.choice((Lsb0, Msb0)))]

    def own(self, kind):
        bits = kind.from_bytes(self.draw.randbytes(700), self.draw.choice((Lsb0, Msb0)))
        bits.resize(self.draw.choice(LENGTHS))
        return bits

    def change(self, bits):
        self.draw.choice((
            lambda: bits.resize(self.draw.choice((3000, 70_000)), True), bits.clear, lambda: bits.resize(3), lambda: bits.extend(bits[:9000].copy()),
            lambda: bits.__init__(bytearray(3), Msb0), lambda: bits.append(1), lambda: bits.__delitem__(slice(1, None)),
            lambda: (bits.clear(), bits.__init__(self.memory)),
        ))()

    def act(self):
        """What the evil ones do, once for each time they are asked."""
        if self.is_acting or self.acts > 9:
            return
        self.is_acting, self.acts = True, self.acts + 1
        for act in [*(lambda it=it: self.change(it) for it in self.bits), *(it.release for it in self.views), self.memory.clear]:
            try:
                act()
            except REFUSALS:
                pass
        if self.draw.random() < 0.3:
            self.bits.clear()
        self.is_acting = False


class Watched(type):
    """The class of a class of bits that acts when it is asked for what it hasn't."""

    scene = None

    def __getattr__(cls, name):
        if Watched.scene:
            Watched.scene.act()
        raise AttributeError(name)


class Noticing(Bits, metaclass=Watched):
    pass


class Number:
    """A number that acts when it is asked for its value."""

    def __init__(self, scene, value):
        self.scene, self.value = scene, value

    def __index__(self):
        self.scene.act()
        return self.value

    def __eq__(self, right):
        self.scene.act()
        return right == (self.value & 1)

    def __getattr__(self, name):
        self.scene.act()
        raise AttributeError(name)

    __hash__ = None


class Items(Number):
    """Items that act when they are asked for."""

    def __len__(self):
        self.scene.act()
        return 2

    def __iter__(self):
        self.scene.act()
        yield self.scene.draw.choice((0, 1, self.scene.draw.choice((Number(self.scene, 1), Step(Op.FILL, 0, 64, bit=1)))))
        self.scene.act()
        yield self.scene.draw.choice((1, Step(Op.COPY, 0, 64, 0, 64)))


class Last:
    """Garbage that acts when it is found."""

    def __init__(self, scene):
        self.scene, self.me = scene, self

    def __del__(self):
        self.scene.act()


def operands(scene):
    """What a call is given, by kind."""
    value = scene.draw.choice((0, 1, 2, 3, 64, 600, -1))
    number, bits = Number(scene, value), scene.draw.choice(scene.bits)
    return [number, bits, slice(number, Number(scene, 60), Number(scene, scene.draw.choice((1, 2, -1, -3)))), Items(scene, value),
            scene.draw.choice(("0110", b"\x05", [0, Number(scene, 1)], 1, 3, None, Lsb0, Msb0, scene.memory, Bits, FrozenBits, slice(None)))]


def calls():
    """Each call by name: the methods of both classes, and what else is made of bits."""
    for kind in (Bits, FrozenBits, Noticing):
        for name in sorted(set(dir(kind)) - OTHERS):
            if callable(getattr(kind, name, None)):
                yield f"{kind.__name__}.{name}", getattr(kind, name), isinstance(vars(Bits).get(name), classmethod)
        yield kind.__name__, kind, True
    for call in (iter, list, tuple, reversed, memoryview, copy.copy, copy.deepcopy, pickle.dumps, sum, bytes, hash):
        yield call.__name__, call, False


def tried(call, arguments, scene, has_garbage):
    """Carries a call out, and gives what it answers."""
    Watched.scene = scene
    # so that no object of these kinds is free, and the next is a new one
    kept = [(Bits.zeros(8), [], ()) for _ in range(90)] if has_garbage else None
    garbage = [Last(scene) for _ in range(3)] if has_garbage else None
    del garbage
    if has_garbage:
        gc.set_threshold(1)
        gc.enable()
    try:
        return call(*arguments)
    except REFUSALS:
        return None
    finally:
        gc.disable()
        Watched.scene = None
        del kept


def look_at(answer):
    """Reads what a call answers and its operands, so that what is wrong is seen."""
    if isinstance(answer, Bits):
        text = str(answer)
        assert len(text) == len(answer) and text.count("1") == answer.count_ones() and answer == answer.copy(), text
        try:
            answer.resize(len(text) + 70)
        except REFUSALS:
            return
        assert not answer[len(text) :].any(), "a bit behind the last was written"
        answer.resize(len(text))


def one_call(name, call, is_free, draw, number, share):
    """Calls with so many arguments, a share of all kinds of them, some more than once, with and without garbage."""
    count = len(operands(Scene(draw)))
    for kinds in itertools.chain.from_iterable(itertools.product(range(count), repeat=number) for _ in range(TIMES[number])):
        if draw.random() > share * (0.2 if number > 2 else 1):
            continue
        for has_garbage in (False, True):
            scene = Scene(draw)
            left = [] if is_free else [draw.choice(scene.bits)]
            if name.startswith("FrozenBits.") and not is_free:
                left = [FrozenBits(left[0])]
            arguments = [*left, *(operands(scene)[kind] for kind in kinds)]
            were = [it for it in [*arguments, *scene.bits] if isinstance(it, Bits)]
            for answer in [tried(call, arguments, scene, has_garbage), *were]:
                look_at(answer)
            yield scene.acts


def main():
    share = float(sys.argv[1]) if len(sys.argv) > 1 else 1
    word = sys.argv[2] if len(sys.argv) > 2 else ""
    gc.disable()
    gc.collect()
    gc.freeze()
    draw, tries, acts = random.Random(7), 0, 0
    for name, call, is_free in calls():
        for number in range(4 if word in name else 0):
            for done in one_call(name, call, is_free, draw, number, share):
                tries, acts = tries + 1, acts + done
    print(f"evil operands: {tries} calls, in which they acted {acts} times")


main()
