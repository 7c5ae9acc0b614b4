"""Where the processor seconds of a command go: a sample of its processes, several times a second, by crate and by what is done there."""
import collections
import ctypes
import os
import re
import subprocess
import time

PROOF, TESTS, EDITS = PARTS = ("proof", "tests", "edits")
# Seconds between two samples, and how many samples it waits for what the command left.
EVERY, WAITS = 0.4, 20
TICKS = os.sysconf("SC_CLK_TCK")
# Where `rt ci` proves: in the crate's folder of the repository or of the copy that it works on. Edits it tries in copies of a crate.
IN_CRATE, IN_EDIT = re.compile(r"(.*)/crates/(\w+)"), re.compile(r".*/rt-edit-[^/]*")
COPY, RUN = re.compile(r".*/rt-copy-[^/]*/repo"), re.compile(r".*/rt-run-[^/]*/bin/(\w+?)(_tests)?")
TO_TESTS = re.compile(r"out/(\w+)_tests(?:\.o)?")
CHILD_SUBREAPER = 36


def part_of(words, cwd, top):
    """The crate and the part that a process works for, by its command line and its folder, or None."""
    for word in words:
        run = RUN.fullmatch(word)
        if run:
            return run[1], TESTS
    at = IN_CRATE.fullmatch(cwd)
    is_here = at and (at[1] == top or COPY.fullmatch(at[1]))
    if "--crate-name" in words[:-1]:
        name = words[words.index("--crate-name") + 1]
        if IN_EDIT.fullmatch(cwd):
            return name, EDITS
        if is_here and at[2] == name:
            return name, TESTS if "--test" in words else PROOF
    elif is_here and any(word.endswith("/rattle-link") for word in words):
        return at[2], TESTS if any(map(TO_TESTS.fullmatch, words)) else PROOF
    return None


class Process:
    """A process: its parent, its own seconds, those of children that it waited for, and what it works for."""

    def __init__(self, parent):
        self.parent, self.own, self.waited, self.part, self.looks = parent, 0.0, 0.0, None, 0


def stat_of(number):
    """A process's parent, its start, its own ticks and those of the children that it waited for, or None once it is gone."""
    try:
        with open(f"/proc/{number}/stat", errors="replace") as file:
            rest = file.read().rpartition(")")[2].split()
    except OSError:
        return None
    return int(rest[1]), int(rest[19]), int(rest[11]) + int(rest[12]), int(rest[13]) + int(rest[14])


def look_at(number):
    """A process's command line and folder, as far as they can be read."""
    try:
        with open(f"/proc/{number}/cmdline", "rb") as file:
            words = file.read().decode(errors="replace").split("\0")
        return words, os.readlink(f"/proc/{number}/cwd")
    except OSError:
        return [], ""


class Sampler:
    """The processes below one, by its number."""

    def __init__(self, top, root):
        self.top, self.root, self.known, self.alive = str(top), root, {}, {}

    def look(self):
        """One sample."""
        stats = {int(name): stat_of(name) for name in os.listdir("/proc") if name.isdigit()}
        stats = {number: it for number, it in stats.items() if it}
        below = collections.defaultdict(list)
        for number, it in stats.items():
            below[it[0]].append(number)
        self.alive = {}
        queue = [(number, None) for number in below[self.root]]
        while queue:
            number, parent = queue.pop()
            _, start, own, waited = stats[number]
            one = self.known.get((number, start)) or Process(self.alive.get(parent))
            self.known[number, start] = self.alive[number] = one
            one.own, one.waited = own / TICKS, waited / TICKS
            if one.looks < 4:
                one.looks += 1
                one.part = part_of(*look_at(number), self.top) or one.part
            queue += [(child, number) for child in below[number]]

    def parts(self):
        """Seconds by crate and part. What a process waited for and no sample saw counts where that process does."""
        seen, found = collections.defaultdict(float), collections.defaultdict(float)
        for one in self.known.values():
            if one.parent:
                seen[id(one.parent)] += one.own + one.waited
        for one in self.known.values():
            at = one
            while at and not at.part:
                at = at.parent
            if at:
                found[at.part] += one.own + max(0.0, one.waited - seen[id(one)])
        return dict(found)


def run(words, top):
    """Runs a command. Its status, the seconds by crate and part, those of all that it started, and those that passed."""
    # what outlives its parent comes to this process, so that none is lost
    ctypes.CDLL(None).prctl(CHILD_SUBREAPER, 1, 0, 0, 0)
    sampler, began, used = Sampler(top, os.getpid()), time.monotonic(), sum(os.times()[2:4])
    started = subprocess.Popen(words, cwd=top)
    while started.poll() is None:
        sampler.look()
        time.sleep(EVERY)
    for _ in range(WAITS):
        sampler.look()
        try:
            os.waitpid(-1, os.WNOHANG)
        except ChildProcessError:
            break
        time.sleep(EVERY)
    return started.returncode, sampler.parts(), sum(os.times()[2:4]) - used, time.monotonic() - began
