"""The examples of the package's documentation: those of the text, each with what bindings/rust/set_ups.txt has round it, so that it
is a program that runs."""
import functools
import pathlib

SET_UPS = pathlib.Path(__file__).resolve().parents[2] / "bindings/rust/set_ups.txt"
PRELUDE = "use fehimbary::prelude::*;"
used = set()


@functools.lru_cache(None)
def set_ups():
    """The lines round the example of each call."""
    found = {}
    for part in SET_UPS.read_text().split("\n== ")[1:]:
        names, *lines = part.rstrip("\n").split("\n")
        found.update(dict.fromkeys(names.split(), lines))
    return found


def whole(name, example):
    """The lines of the example of a call, with those round it; None where the table has no row for it."""
    if name not in set_ups():
        return None
    used.add(name)
    lines = set_ups()[name]
    made = [PRELUDE, *([] if lines[0].startswith("use ") else [""])]
    for line in lines:
        indent = line.removesuffix("..")
        made += [(indent + it).rstrip() for it in example] if line.strip() == ".." else [line]
    return made


def unused():
    """The calls of the table that have no example."""
    return sorted(set(set_ups()) - used)
