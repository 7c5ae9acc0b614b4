"""A model of `bitdo`: its commands on a plain list of truth values, as docs/RUNS.md and `Op` of `bitvec_commands` say them.

It has no words and no masks, and was written from these two pages, so that it shares no slip with the program."""

# The number of the bit that stands at an index of an element of so many bits.
ORDERS = {
    "lsb0": lambda width, index: index,
    "msb0": lambda width, index: width - 1 - index,
    "hilo": lambda width, index: index ^ 4,
}
WIDTHS = (8, 16, 32, 64, 128)


class Refused(Exception):
    """A condition that failed, by the word of the reply."""


def require(condition, reason):
    if not condition:
        raise Refused(reason)


# Memory


def bits_of(width, order, elements):
    """The bits of a memory, in the order of their places."""
    at = ORDERS[order]
    return [bool(element >> at(width, index) & 1) for element in elements for index in range(width)]


def elements_of(width, order, bits):
    """The elements that have these bits."""
    at = ORDERS[order]
    return [
        sum(bits[start + index] << at(width, index) for index in range(width)) for start in range(0, len(bits), width)
    ]


def text_of(width, elements):
    """A memory in the notation of the arguments."""
    return ",".join(f"{element:0{width // 4}X}" for element in elements) or "-"


# Commands that edit. Each is handed the bits of its sub-range as a list, which it changes in place, and answers its reply.


def put(bits, index, bit):
    replace(bits, index, bit)
    return "done"


def replace(bits, index, bit):
    require(index < len(bits), "index")
    old, bits[index] = bits[index], bool(bit)
    return bit_reply(old)


def swap(bits, first, second):
    require(first < len(bits) and second < len(bits), "index")
    bits[first], bits[second] = bits[second], bits[first]
    return "done"


def fill(bits, bit):
    bits[:] = [bool(bit)] * len(bits)
    return "done"


def invert(bits):
    bits[:] = [not bit for bit in bits]
    return "done"


def reverse(bits):
    bits.reverse()
    return "done"


def shift_start(bits, amount):
    require(amount <= len(bits), "amount")
    bits[:] = bits[amount:] + [False] * amount
    return "done"


def shift_end(bits, amount):
    require(amount <= len(bits), "amount")
    bits[:] = [False] * amount + bits[: len(bits) - amount]
    return "done"


def rotate_left(bits, amount):
    require(amount <= len(bits), "amount")
    bits[:] = bits[amount:] + bits[:amount]
    return "done"


def rotate_right(bits, amount):
    require(amount <= len(bits), "amount")
    return rotate_left(bits, len(bits) - amount)


def copy_within(bits, start, end, dest):
    require(start <= end <= len(bits), "source")
    require(dest + (end - start) <= len(bits), "dest")
    bits[dest : dest + (end - start)] = bits[start:end]
    return "done"


# Commands that ask


def get(bits, index):
    require(index < len(bits), "index")
    return bit_reply(bits[index])


def count(wanted):
    return lambda bits: f"count {bits.count(wanted)}"


def first(wanted):
    return lambda bits: index_reply(bits.index(wanted) if wanted in bits else None)


def last(wanted):
    return lambda bits: index_reply(max((place for place, bit in enumerate(bits) if bit is wanted), default=None))


def bit_reply(bit):
    return f"bit {int(bit)}"


def index_reply(index):
    return f"index {'none' if index is None else index}"


# Commands with a right window, whose bits are their second list


def copy_from(bits, right):
    require(len(right) == len(bits), "length")
    bits[:] = right
    return "done"


def combine(operator):
    def combined(bits, right):
        beside = right + [False] * (len(bits) - len(right))
        bits[:] = [operator(bit, other) for bit, other in zip(bits, beside)]
        return "done"

    return combined


def compare(bits, right):
    return "order " + ("less" if bits < right else "greater" if bits > right else "equal")


def stands_somewhere(bits, right):
    return any(bits[place : place + len(right)] == right for place in range(len(bits) - len(right) + 1))


def asks(question):
    return lambda bits, right: bit_reply(question(bits, right))


COMMANDS = {
    "set": put,
    "replace": replace,
    "swap": swap,
    "fill": fill,
    "invert": invert,
    "reverse": reverse,
    "shift_start": shift_start,
    "shift_end": shift_end,
    "rotate_left": rotate_left,
    "rotate_right": rotate_right,
    "copy_within": copy_within,
    "get": get,
    "count_ones": count(True),
    "count_zeros": count(False),
    "first_one": first(True),
    "first_zero": first(False),
    "last_one": last(True),
    "last_zero": last(False),
    "any": lambda bits: bit_reply(any(bits)),
    "all": lambda bits: bit_reply(all(bits)),
}
RIGHT_COMMANDS = {
    "copy_from": copy_from,
    "and": combine(lambda bit, other: bit and other),
    "or": combine(lambda bit, other: bit or other),
    "xor": combine(lambda bit, other: bit is not other),
    "eq": asks(lambda bits, right: bits == right),
    "cmp": compare,
    "starts_with": asks(lambda bits, right: bits[: len(right)] == right),
    "ends_with": asks(lambda bits, right: len(right) <= len(bits) and bits[len(bits) - len(right) :] == right),
    "contains": asks(stands_somewhere),
}


def right_window(right, start, length):
    require(start + length <= len(right), "right")
    return right[start : start + length]


def carry_out(bits, right, begin, end, name, *numbers):
    """Carries a line out on the window's bits, which it changes in place, and answers its reply. Of a command that is
    refused no bit is changed."""
    try:
        require(begin <= end <= len(bits), "range")
        part = bits[begin:end]
        if name in RIGHT_COMMANDS:
            reply = RIGHT_COMMANDS[name](part, right_window(right, *numbers))
        else:
            reply = COMMANDS[name](part, *numbers)
    except Refused as reason:
        return f"refused {reason}"
    bits[begin:end] = part
    return reply


def run(width, order, elements, right, start, length, steps):
    """What is printed of a run, as lines: a reply for each step, and the memory afterwards."""
    memory = bits_of(width, order, elements)
    beside = bits_of(width, order, right)
    window = memory[start : start + length]
    replies = [carry_out(window, beside, *step) for step in steps]
    memory[start : start + length] = window
    return [*replies, "= " + text_of(width, elements_of(width, order, memory))]
