#!/usr/bin/env python3
"""measure.py [LIBRARY..]: the loads and stores of the machine that the functions of fehimbary.h make, against the costs that it states.

client.c calls every function under valgrind, which traces each load and store. Of those in the two memories that a call is
handed, this adds up how many elements each covers, and holds the sums against the header's. What libc loads or stores in a
call of its own, as of memcpy, counts once for each element: what it takes twice is told, and no sum may be twice as large by it.

By hand, in some three minutes once the library is proved, which it is first where no archives are given. It needs gcc,
valgrind and binutils."""
import collections
import pathlib
import subprocess
import sys
import tempfile

HERE = pathlib.Path(__file__).resolve().parent
SIDES = ("loads", "stores", "right loads", "right stores")

Call = collections.namedtuple("Call", "name bits order len start right_start about")


# ---- what the header states: loads and stores of the memory, and of the right one


def steps(n):
    """Word steps of n bits."""
    return -(-n // 64)


def span(call):
    """The elements that 64 bits can touch."""
    return 64 // call.bits + 1


def read(count, call):
    """So many word steps that read a memory."""
    return count * span(call), 0


def write(count, call):
    """So many word steps that write a memory."""
    return count * 2, count * span(call)


def edit(count, call):
    """So many word steps that read and write a memory."""
    return count * (span(call) + 2), count * span(call)


def touched(call):
    """The elements of the window."""
    return (call.start + call.len - 1) // call.bits - call.start // call.bits + 1


def times(call):
    """How many bits are every so many of a window."""
    return -(-call.len // call.about)


def is_near(call):
    """Whether every so many bits are filled by elements."""
    return call.about <= 64 and call.len > 64 * call.bits


NONE = (0, 0)
COSTS = {
    "get": lambda call: (1, 0) + NONE,
    "set": lambda call: (1, 1) + NONE,
    "replace": lambda call: (2, 1) + NONE,
    "swap_bits": lambda call: (4, 2) + NONE,
    "fill": lambda call: (2, touched(call)) + NONE,
    "invert": lambda call: (touched(call), touched(call)) + NONE,
    "reverse": lambda call: edit(steps(call.len) + 1, call) + NONE,
    "shift": lambda call: edit(steps(call.len) + 1, call) + NONE,
    "rotate": lambda call: edit(2 * steps(call.len) + 4, call) + NONE,
    "copy_within": lambda call: edit(steps(call.about), call) + NONE,
    "copy": lambda call: write(steps(call.len), call) + read(steps(call.len), call),
    "combine": lambda call: edit(steps(call.len), call) + read(steps(call.len), call),
    "swap": lambda call: edit(steps(call.len), call) * 2,
    "scan": lambda call: (touched(call), 0) + NONE,
    "fill_step": lambda call: (edit(steps(call.len) + call.len // (448 * call.bits) + 1, call) if is_near(call) else 2 * (times(call),)) + NONE,
    "copy_step": lambda call: 3 * (times(call),) + (0,),
    "count_step": lambda call: (times(call), 0) + NONE,
    "pairs": lambda call: read(steps(call.len), call) * 2,
    "ones": lambda call: (touched(call) + call.about, 0) + NONE,
    "equal": lambda call: read(steps(call.len), call) * 2,
    "compare": lambda call: (min(call.len, call.about), 0) * 2,
    "needle": lambda call: read(steps(call.about), call) * 2,
    "contains": lambda call: read((call.len - call.about + 1) * steps(call.about), call) * 2,
    "load": lambda call: read(1, call) + NONE,
    "store": lambda call: write(1, call) + NONE,
}
KINDS = {
    **dict.fromkeys(("shift_start", "shift_end"), "shift"),
    **dict.fromkeys(("rotate_left", "rotate_right"), "rotate"),
    **dict.fromkeys(("and", "or", "xor"), "combine"),
    **dict.fromkeys(("count_ones", "count_zeros", "first_one", "first_zero", "last_one", "last_zero", "any", "all"), "scan"),
    **dict.fromkeys(("starts_with", "ends_with"), "needle"),
    **dict.fromkeys(("count_and", "count_xor", "disjoint", "subset"), "pairs"),
    **dict.fromkeys(("load_le", "load_be"), "load"),
    **dict.fromkeys(("store_le", "store_be"), "store"),
}


def bound_of(call):
    name = call.name.removeprefix("run:")
    return COSTS[KINDS.get(name, name)](call)


# ---- what the machine does


def built(libraries, room):
    """The client, linked with the library."""
    make = ["make", "-s", "-C", HERE.parent, "out/libfehimbary.a"]
    if libraries:
        make.append("LIBRARY=" + " ".join(str(pathlib.Path(it).resolve()) for it in libraries))
    subprocess.run(make, check=True, stdout=sys.stderr)
    client = room / "client"
    words = ["gcc", "-std=c11", "-O1", "-Wall", "-Wextra", "-Wpedantic", "-Werror", "-no-pie", "-Wl,-z,now", f"-I{HERE.parent}"]
    subprocess.run([*words, HERE / "client.c", HERE.parent / "out/libfehimbary.a", "-o", client], check=True)
    return client


def addresses(client):
    """Where the client's markers, memories and code stand."""
    lines = subprocess.run(["nm", client], check=True, capture_output=True, text=True).stdout.splitlines()
    return {it.split()[-1]: int(it.split()[0], 16) for it in lines if len(it.split()) == 3}


class Tally:
    """The elements that one call loads and stores, of both memories."""

    def __init__(self):
        self.machine = [0, 0, 0, 0]
        self.counted = [0, 0, 0, 0]
        self.in_libc = [set(), set(), set(), set()]

    def access(self, side, first, last, is_own):
        self.machine[side] += last - first + 1
        if is_own:
            self.counted[side] += last - first + 1
        else:
            self.in_libc[side].update(range(first, last + 1))

    def libc_returns(self):
        for side, elements in enumerate(self.in_libc):
            self.counted[side] += len(elements)
            elements.clear()


def tallies(client, calls):
    """Runs the client, and tells of each call what it loads and stores."""
    at = addresses(client)
    begins, ends = (f" S {at[it]:08x},8\n".encode() for it in ("begins", "ends"))
    left, right = at["left_memory"], at["right_memory"]
    size = 1152
    code, code_end = at["_init"], at["_fini"]
    words = ["valgrind", "--tool=lackey", "--trace-mem=yes", "--log-fd=2", client]
    run = subprocess.Popen(words, stdout=subprocess.DEVNULL, stderr=subprocess.PIPE)
    tally, is_own, made = None, True, []
    for line in run.stderr:
        if tally is None:
            if line == begins:
                tally, is_own = Tally(), True
            continue
        kind, _, rest = line[1:].partition(b" ") if line[:1] == b" " else (b"I", b"", line[3:])
        place, _, count = rest.partition(b",")
        place = int(place, 16)
        if kind == b"I":
            if (code <= place < code_end) != is_own:
                is_own = not is_own
                tally.libc_returns()
            continue
        if line == ends:
            tally.libc_returns()
            made.append(tally)
            tally = None
            continue
        start = left if left <= place < left + size else right if right <= place < right + size else None
        if start is None:
            continue
        beside = 0 if start == left else 2
        made_of = calls[len(made)].bits // 8
        first, last = (place - start) // made_of, (place - start + int(count) - 1) // made_of
        if kind in (b"L", b"M"):
            tally.access(beside, first, last, is_own)
        if kind in (b"S", b"M"):
            tally.access(beside + 1, first, last, is_own)
    if run.wait() != 0:
        sys.exit("measure.py: the client fails")
    return made


def calls_of(text):
    """The calls that the client told of."""
    for line in text.splitlines():
        name, *numbers = line.split()
        yield Call(name, *map(int, numbers))


def main(libraries):
    with tempfile.TemporaryDirectory() as name:
        room = pathlib.Path(name)
        client = built(libraries, room)
        calls = list(calls_of(subprocess.run([client, "tell"], check=True, capture_output=True, text=True).stdout))
        made = tallies(client, calls)
    if len(made) != len(calls):
        sys.exit(f"measure.py: {len(calls)} calls, of which the trace has {len(made)}")
    report(list(zip(calls, made)))


def report(told):
    """Says how often libc takes elements twice, and fails where the library's own code goes beyond the header."""
    beyond, twice = [], collections.defaultdict(list)
    for call, tally in told:
        for side, counted, machine, bound in zip(SIDES, tally.counted, tally.machine, bound_of(call)):
            if counted > bound or machine > 2 * counted:
                beyond.append(f"{call}: {counted} {side}, {machine} with libc's, at most {bound}")
            if machine > counted:
                twice[call.name].append((machine - counted, counted, max(machine - bound, 0)))
    print(f"{len(told)} calls; the library's own code goes beyond the header's costs {len(beyond)} times")
    for name, sums in sorted(twice.items()):
        more, of, _ = max(sums)
        above = [over for *_, over in sums if over]
        print(f"{name}: in {len(sums)} sums libc takes elements twice, at most {more} beside {of};", end=" ")
        print(f"in {len(above)} it goes beyond the header so, by at most {max(above, default=0)}")
    if beyond:
        sys.exit("\n".join(beyond[:100]))


if __name__ == "__main__":
    main(sys.argv[1:])
