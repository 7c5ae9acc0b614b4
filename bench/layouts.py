#!/usr/bin/env python3
"""layouts.py LAYOUTS: times the benchmark in so many layouts, and prints its tables.

In each layout the linker puts the functions of the library, the peers and the loops in an order of its own, so that jumps fall
at other places. The functions are those of users' builds. The programs of all layouts take turns, a round each. A number of
a table is the median of the layouts. Behind the library's speed, or else behind the last ratio, stand the least and the greatest.
Layout N lies in out/layouts/N, with what it printed."""
import os
import pathlib
import re
import statistics
import subprocess
import sys

from toolchain import KIT, TOP

OUT = TOP / "bench/out"
CALLED = [TOP / "crates/bitvec_c/out/libbitvec_c.a", OUT / "libpeers.a"]
OF_KIT = [KIT / "c/libos_c.a", KIT / "c/liblibc_c.a"]
# The programs of the benchmark, and the program of the repository that each runs.
RUN = {"programs": OUT / "bitvec_times.o", "sieve": TOP / "crates/sieve/out/sieve.o", "closure": TOP / "crates/bitmatrix/out/bitmatrix.o"}


def linked(layout, name, *files):
    """A program of these files in a layout."""
    made = OUT / f"layouts/{layout}/{name}"
    made.parent.mkdir(parents=True, exist_ok=True)
    order = f"-Wl,--gc-sections,--shuffle-sections=.text*={layout}"
    subprocess.run(["g++", "-o", made, *files, "-fuse-ld=lld", f"-B{KIT}/toolchain/bin", order, "-lpthread", "-ldl"], check=True)
    return made


def commands(layout):
    """What prints the tables of a layout."""
    yield linked(layout, "driver", OUT / "driver.o", *CALLED), "tables"
    for name, run in RUN.items():
        yield linked(layout, name, OUT / f"{name}.o", *CALLED), linked(layout, f"run_by_{name}", run, *OF_KIT)


def printed(commands):
    """The lines that each command prints. They take turns: a byte goes from each to the next, and who has it works (timing.hpp)."""
    files, pipes, runs = [it[0].with_suffix(".md") for it in commands], [os.pipe() for _ in commands], []
    for command, file, (start, _), (_, end) in zip(commands, files, pipes, pipes[1:] + pipes[:1]):
        ends = {"pass_fds": (start, end), "env": {**os.environ, "TURNS": f"{start} {end}"}}
        runs.append(subprocess.Popen(command, stdout=file.open("w"), **ends))
    os.write(pipes[0][1], b".")
    for _, end in pipes:
        os.close(end)
    if any([it.wait() for it in runs]):
        sys.exit(f"layouts.py: {commands[0][0].name} failed")
    for start, _ in pipes:
        os.close(start)
    return [it.read_text().splitlines() for it in files]


def numbers(cells):
    """The numbers that these are; none where one is no number."""
    try:
        return [float(it) for it in cells]
    except ValueError:
        return []


def shown(x):
    """The cell of a number with three digits that count."""
    return f" {x:.0f} " if x >= 1000 else f" {x:#.3g} ".replace(". ", " ")


def middle(cells):
    """The median of numbers; of other cells the most common one."""
    if len(set(cells)) == 1 or not numbers(cells):
        return statistics.mode(cells)
    return shown(statistics.median(numbers(cells)))


def ends(cells):
    """The least and the greatest of numbers; in a head the names of these."""
    if found := numbers(cells):
        return [shown(min(found)), shown(max(found))]
    return ["---", "---"] if cells[0] == "---" else [" least ", " greatest "]


def joined(runs):
    """The lines of tables that differ in their numbers."""
    place = None
    for lines in zip(*runs, strict=True):
        if not lines[0].startswith("|"):
            place = None
            yield lines[0]
            continue
        columns = list(zip(*(re.split(r"(?<!\\)\|", it)[1:-1] for it in lines), strict=True))
        row = [middle(it) for it in columns]
        place = place or (row.index(" library ") if " library " in row else len(row) - 1)
        row[place + 1 : place + 1] = ends(columns[place])
        yield f"|{'|'.join(row)}|"


def main(layouts):
    every = list(zip(*map(commands, range(1, layouts + 1))))
    subprocess.run([every[0][0][0], "check"], check=True)
    for commands_of_one in every:
        print(*joined(printed(commands_of_one)), sep="\n", flush=True)


if __name__ == "__main__":
    if len(sys.argv) != 2:
        sys.exit(__doc__)
    main(int(sys.argv[1]))
