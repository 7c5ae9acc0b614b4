"""Compares the package for Python with lists, on windows at random: client.py [WINDOWS]."""

import array
import random
import sys

from fehimbary import Bits, Lsb0, Msb0, Op, Refused, Reply, Status, Step

BITS = {"B": 8, "H": 16, "I": 32, "Q": 64}


def status_of(call, *arguments):
    """The status of a call by name, and its answer."""
    try:
        return "FB_DONE", call(*arguments)
    except Refused as refused:
        return f"FB_{refused.status.name}", None


def size_up_to(most):
    """A size of at most `most`, and sometimes one that is too great."""
    return random.choice([0, most, most + 1, 2**64 - 1] + 12 * [random.randint(0, most)])


def expect(holds, what):
    if not holds:
        raise SystemExit(f"{what} differs")


class Window:
    """A memory with random elements, and some bits of it that stand together."""

    def __init__(self, code, order):
        count = random.randint(0, 400 // BITS[code])
        self.code, self.order, self.bits = code, order, BITS[code] * count
        numbers = [random.getrandbits(BITS[code]) for _ in range(count)]
        self.memory = bytearray(numbers) if code == "B" and random.getrandbits(1) else array.array(code, numbers)
        self.start = random.randint(0, self.bits)
        self.stop = random.randint(self.start, self.bits)

    def view(self):
        return Bits(self.memory, self.order)[self.start : self.stop]

    def all_bits(self):
        digits = (format(number, f"0{BITS[self.code]}b") for number in self.memory)
        return [int(bit) for text in digits for bit in (text if self.order == Msb0 else text[::-1])]

    def list(self):
        return self.all_bits()[self.start : self.stop]

    def with_list(self, bits):
        """All bits of the memory, with these in the window."""
        return self.all_bits()[: self.start] + bits + self.all_bits()[self.stop :]


def check_edit(window, name, refusal, new, *arguments):
    """A method that edits: refused, or what it leaves."""
    wanted = window.with_list(window.list() if refusal else [int(bit) for bit in new()])
    status, _ = status_of(getattr(window.view(), name), *arguments)
    expect(status == (refusal or "FB_DONE"), f"the status of {name}")
    expect(window.all_bits() == wanted, f"the memory after {name}")


def check_single_bits(window):
    bits, i, k, bit = window.list(), size_up_to(window.stop - window.start), size_up_to(3), random.getrandbits(1)
    refusal = None if i < len(bits) else "FB_INDEX"
    status, said = status_of(window.view().__getitem__, i)
    expect((status, said) == (refusal or "FB_DONE", None if refusal else bits[i]), "a bit")
    status, said = status_of(window.view().replace, i, bits[i] if not refusal else 0)
    expect((status, said) == (refusal or "FB_DONE", None if refusal else bits[i]), "replace")
    check_edit(window, "__setitem__", refusal, lambda: bits[:i] + [bit] + bits[i + 1 :], i, bit)

    def exchanged():
        new = window.list()
        new[i], new[k] = new[k], new[i]
        return new

    check_edit(window, "swap_bits", None if i < len(bits) and k < len(bits) else "FB_INDEX", exchanged, i, k)


def check_edits(window):
    bits, length = window.list, window.stop - window.start
    by, start, stop, dest = (size_up_to(length) for _ in range(4))
    refusal = None if by <= length else "FB_AMOUNT"
    check_edit(window, "invert", None, lambda: [1 - bit for bit in bits()])
    check_edit(window, "reverse", None, lambda: bits()[::-1])
    check_edit(window, "rotate_left", refusal, lambda: bits()[by:] + bits()[:by], by)
    check_edit(window, "rotate_right", refusal, lambda: bits()[length - by :] + bits()[: length - by], by)
    source = "FB_SOURCE" if start > stop or stop > length else None
    refused = source or ("FB_DEST" if dest + (stop - start) > length else None)
    check_edit(window, "copy_within", refused,
               lambda: bits()[:dest] + bits()[start:stop] + bits()[dest + stop - start :], start, stop, dest)
    shift, zeros = random.choice([("__ilshift__", lambda: (bits() + length * [0])[min(by, length) :][:length]),
                                  ("__irshift__", lambda: (min(by, length) * [0] + bits())[:length])])
    check_edit(window, shift, None, zeros, by)


def check_transfers(left, right):
    refusal = None if len(left.list()) == len(right.list()) else "FB_LENGTH"
    before = right.all_bits()
    for name, meaning in [("__ixor__", int.__xor__), ("__ior__", int.__or__), ("__iand__", int.__and__)]:
        other = (right.list() + len(left.list()) * [0])[: len(left.list())]
        check_edit(left, name, None, lambda: map(meaning, left.list(), other), right.view())
    check_edit(left, "copy_from", refusal, right.list, right.view())
    check_edit(left, "invert", None, lambda: [1 - bit for bit in left.list()])
    expect(right.all_bits() == before, "the right memory")
    swapped = before if refusal else right.with_list(left.list())
    check_edit(left, "swap", refusal, right.list, right.view())
    expect(right.all_bits() == swapped, "the right memory after swap")


def check_steps(left, right):
    """Every so many bits of a window: counted, copied and filled."""
    bits, by, bit = left.list(), random.randint(1, 70), random.getrandbits(1)
    part = slice(*(random.choice([None, random.randint(-len(bits) - 3, len(bits) + 3)]) for _ in range(2)), random.choice([by, -by, 1]))
    wanted, those = list(bits), right.list()[: len(bits[part])]
    expect(list(left.view()[part]) == bits[part], "a part with a step")
    expect(left.view().count(bit, part.start, part.stop, part.step) == bits[part].count(bit), "count with a step")
    status, _ = status_of(left.view().__setitem__, part, right.view()[: len(bits[part])])
    if len(those) == len(bits[part]):
        wanted[part] = those
    expect(status == ("FB_DONE" if len(those) == len(bits[part]) else "FB_LENGTH"), "the status of a copy with a step")
    expect(left.all_bits() == left.with_list(wanted), "the memory after a copy with a step")
    left.view()[part] = bit
    wanted[part] = len(bits[part]) * [bit]
    expect(left.all_bits() == left.with_list(wanted), "the memory after a fill with a step")


def check_pairs(left, right):
    bits, other = left.list(), (right.list() + len(left.list()) * [0])[: len(left.list())]
    both, first = sum(map(int.__and__, bits, other)), sum(a > b for a, b in zip(bits, other))
    view, beside = left.view(), right.view()
    expect((view.count_and(beside), view.count_xor(beside)) == (both, sum(map(int.__ne__, bits, other))), "count_and, count_xor")
    expect((view.isdisjoint(beside), view.issubset(beside), beside.issuperset(view)) == (both == 0, first == 0, first == 0), "a subset")


def index_of(bits, bit):
    return bits.index(bit) if bit in bits else None


def last_index_of(bits, bit):
    return len(bits) - 1 - bits[::-1].index(bit) if bit in bits else None


def check_questions(window):
    bits, view = window.list(), window.view()
    ones = [index for index, bit in enumerate(bits) if bit]
    expect(len(view) == len(bits) and list(view) == bits, "the bits")
    expect(view.count_ones() == len(ones) and view.count_zeros() == len(bits) - len(ones), "a count")
    expect(view.any() == any(bits) and view.all() == all(bits), "any or all")
    expect((view.first_one(), view.last_one()) == (index_of(bits, 1), last_index_of(bits, 1)), "a search for a one")
    expect((view.first_zero(), view.last_zero()) == (index_of(bits, 0), last_index_of(bits, 0)), "a search for a zero")
    expect(view.ones() == ones, "ones")
    expect((True in view, False in view) == (1 in bits, 0 in bits), "in")


def check_comparisons(left, right):
    if random.getrandbits(1):
        right.stop = min(right.stop, right.start + 5)
    view, other, bits, needle = left.view(), right.view(), left.list(), right.list()
    places = [place for place in range(len(bits) - len(needle) + 1) if bits[place : place + len(needle)] == needle]
    expect((view == other) == (bits == needle) and (view != other) == (bits != needle) and view == view, "==")
    expect((view < other, view <= other) == (bits < needle, bits <= needle), "<")
    expect((view > other, view >= other) == (bits > needle, bits >= needle), ">")
    expect(view.starts_with(other) == (0 in places), "starts_with")
    expect(view.ends_with(other) == (len(bits) - len(needle) in places), "ends_with")
    expect((other in view) == (places != []), "in")


def number_of(window, big):
    """The number of a window's bits: its segments, from the lowest on."""
    bits, segments = window.list(), []
    for index, bit in enumerate(bits):
        if index == 0 or (window.start + index) % BITS[window.code] == 0:
            segments.append([])
        segments[-1].append(bit)
    lowest_first = [segment[::-1] if window.order == Msb0 else segment for segment in segments]
    lows = [bit for segment in (lowest_first[::-1] if big else lowest_first) for bit in segment]
    return sum(bit << weight for weight, bit in enumerate(lows))


def check_numbers(window):
    window.stop = min(window.stop, window.start + random.randint(0, 66))
    length, number, outside = window.stop - window.start, random.getrandbits(64), window.with_list([])
    refusal = "FB_DONE" if 1 <= length <= 64 else "FB_WIDTH"
    for end, big in [("le", False), ("be", True)]:
        status, said = status_of(getattr(window.view(), "load_" + end))
        expect(status == refusal and said in (None, number_of(window, big)), "load_" + end)
        status, _ = status_of(getattr(window.view(), "store_" + end), number)
        expect(status == refusal, "the status of store_" + end)
        expect(status != "FB_DONE" or number_of(window, big) == number % 2**length, "store_" + end)
    expect(window.with_list([]) == outside, "the bits beside a number")


def check_run(left, right):
    length = len(left.list())
    check_edit(left, "fill", None, lambda: length * [1], True)
    steps = [Step(Op.FILL, 0, length // 2), Step(Op.GET, 0, length, first=length),
             Step(Op.COUNT_ONES, 0, length), Step(Op.STARTS_WITH, 0, length, second=right.bits + 1)]
    replies = left.view().run(right.view(), steps)
    expect([Status(reply.status).name for reply in replies] == ["DONE", "INDEX", "DONE", "RIGHT"], "run")
    expect(isinstance(replies[2], Reply) and replies[2].low == length - length // 2, "a reply")
    expect(status_of(left.view().run, right.view(), [Step(len(Op), 0, 0)])[0] == "FB_OP", "a run of no command")


def main():
    windows = int(sys.argv[1]) if len(sys.argv) > 1 else 100
    random.seed(7)
    for code in BITS:
        for _ in range(windows):
            for order in (Lsb0, Msb0):
                left, right = Window(code, order), Window(code, order)
                if random.getrandbits(1):
                    right.stop = min(right.start + left.stop - left.start, right.bits)
                check_single_bits(left)
                check_edits(left)
                check_transfers(left, right)
                check_questions(left)
                check_comparisons(left, right)
                check_run(left, right)
                check_steps(left, right)
                check_pairs(left, right)
                check_numbers(right)
        print(f"elements of {BITS[code]} bits: every method on {2 * windows} views")


main()
