"""Scripts of `bitdo`, drawn from a seed that stays: every command many times at each width and order, in windows at the
start of an element, behind its first bit, at its last and elsewhere, of few bits, of about an element and of many."""
import collections
import itertools
import random

import model

SEED = 20_240_229
NAMES = [*model.COMMANDS, *model.RIGHT_COMMANDS]
GREATEST = 2**64 - 1

Script = collections.namedtuple("Script", "width order elements right start length steps")


class Drawing:
    """Draws from one stream of numbers."""

    def __init__(self, seed):
        self.numbers = random.Random(seed)

    def below(self, bound):
        return self.numbers.randrange(bound)

    def elements(self, width, bits):
        """Elements with no pattern, so many that they hold these bits."""
        return [self.numbers.getrandbits(width) for _ in range(-(-bits // width))]

    def amount(self, most):
        """A number up to `most`, often one of the two ends; now and then one beyond."""
        beyond = (most + 1, most + 2, GREATEST)
        return self.of([0, most, *(self.below(most + 1) for _ in range(8)), self.of(beyond)])

    def index(self, length):
        return self.amount(max(length - 1, 0))

    def of(self, choices):
        return choices[self.below(len(choices))]

    def range(self, length):
        """A sub-range of a window of so many bits, mostly all of it or nearly so."""
        few = self.below(min(length, 5) + 1)
        begin = self.of([0, 0, few, self.below(length + 1)])
        end = self.of([length, length, max(begin, length - few), self.amount(length)])
        return begin, end

    def right_window(self, width, length, right):
        """A right window for so many bits, as many, fewer or more, beside so many of the right memory. Nineteen of twenty
        lie in it."""
        start = self.of([0, 1, width - 1, self.below(2 * width)])
        taken = self.of([length] * 6 + [0, length // 2, length + 1, self.below(length + 2)])
        return (start, taken) if self.below(20) else (self.amount(right), self.amount(right))

    def needle(self, width, length):
        """A right window of few bits, which a window of so many may well have somewhere."""
        return self.below(3 * width), self.below(min(length, 9) + 2)

    def numbers_of(self, name, width, length, right):
        """The numbers behind a command's name, on so many bits beside so many of the right memory."""
        if name in ("starts_with", "ends_with", "contains") and self.below(3):
            return self.needle(width, length)
        if name in model.RIGHT_COMMANDS:
            return self.right_window(width, length, right)
        if name in ("set", "replace"):
            return self.index(length), self.below(2)
        if name == "swap":
            return self.index(length), self.index(length)
        if name == "get":
            return (self.index(length),)
        if name == "fill":
            return (self.below(2),)
        if name.startswith(("shift_", "rotate_")):
            return (self.amount(length),)
        if name == "copy_within":
            start = self.amount(length)
            end = self.of([self.amount(length), min(start, length) + self.below(max(length - start, 0) + 1)])
            return start, end, self.amount(max(length - abs(end - start), 0))
        return ()

    def step(self, name, width, length, right):
        begin, end = self.range(length)
        part = end - begin if begin <= end <= length else length
        return begin, end, name, *self.numbers_of(name, width, part, right)

    def steps(self, width, length, right):
        """Each command twice, in an order with no pattern."""
        names = NAMES * 2
        self.numbers.shuffle(names)
        for name in names:
            step = self.step(name, width, length, right)
            yield step
            yield from self.following(width, *step)

    def following(self, width, begin, end, name, *numbers):
        """What was copied is compared at once, since windows with no pattern are seldom equal. What took the pattern out
        of a range is followed by a step that brings one back."""
        if name == "copy_from":
            yield begin, end, self.of(["eq", "cmp", "starts_with", "ends_with", "contains"]), *numbers
        if name in ("fill", "shift_start", "shift_end", "and", "or"):
            yield begin, end, "xor", self.below(2 * width), max(end - begin, 0)

    def script(self, width, order, start, length):
        elements = self.elements(width, start + length + self.below(width))
        right = self.elements(width, length + 3 * width)
        steps = list(self.steps(width, length, len(right) * width))
        return Script(width, order, elements, right, start, length, steps)


def scripts():
    """All scripts."""
    drawing = Drawing(SEED)
    for width, order in itertools.product(model.WIDTHS, model.ORDERS):
        for length in (0, 1, width - 1, width, width + 1, 64, 65, 130, 1000):
            for start in (0, 1, width - 1, drawing.below(3 * width)):
                yield drawing.script(width, order, start, length)


def words_of(script):
    """The six arguments of a script."""
    memories = (model.text_of(script.width, it) for it in (script.elements, script.right))
    return [str(script.width), script.order, *memories, str(script.start), str(script.length)]


def input_of(script):
    """The lines of a script."""
    return "".join(" ".join(map(str, step)) + "\n" for step in script.steps)


def wanted_of(script):
    """The lines that are printed."""
    return model.run(*script)
