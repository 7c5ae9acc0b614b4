#!/usr/bin/env python3
"""callers.py SAID | --built: for `compile_fail/check.sh proved`, which makes a crate of the callers that break a condition.

With a file SAID, which has what `rattle check` said of the crate, it fails where one of compile_fail/*.txt isn't refused for the condition
that it breaks, or is refused for something else, and where a right caller beside it isn't proved. With --built it says by its status
whether the libraries in out/ are those of these sources: `rt ci` leaves such, but puts back what an earlier check built."""
import functools
import pathlib
import sys

sys.dont_write_bytecode = True
import refusals

HERE = pathlib.Path(__file__).resolve().parent


def are_built():
    """Whether all libraries are as `rt ci` left them, or all as a check built them of these sources."""
    sys.path.insert(0, str(HERE.parent / "bench"))
    import toolchain

    rtlib = toolchain.library()
    # the stamp of a crate is made of those of the crates below it, so each is made once
    rtlib.Crate.stamp = functools.lru_cache(None)(rtlib.Crate.stamp)
    bitvec = toolchain.crate_of(rtlib, "bitvec")
    crates = [*bitvec.below(), bitvec]
    if not all(pathlib.Path(it.rlib).is_dir() for it in crates):
        return False
    stamps = [pathlib.Path(it.rlib).with_name("stamp") for it in crates]
    return not any(it.exists() for it in stamps) or all(it.is_built() for it in crates)


def wanted():
    """The callers that must be refused, each with the condition that it breaks."""
    first_lines = {file.stem: file.read_text().partition("\n")[0] for file in HERE.glob("*.txt")}
    return {(f"{name}::{name}", want) for name, want in first_lines.items() if want.endswith("-requires")}


def faults(said, wanted):
    """What is wrong with how callers were refused."""
    if not refusals.is_refused(said):
        yield "no verdict refuses the crate"
        return
    found, lost = refusals.refusals(said)
    for caller, condition in sorted(wanted - found):
        yield f"{caller}: not refused by {condition}"
    for caller, condition in sorted((found | lost) - wanted):
        yield f"{caller}: refused by {condition}"


def main(word):
    if word == "--built":
        return not are_built()
    said = pathlib.Path(word).read_text()
    wrong = [*faults(said, wanted())]
    for line in wrong:
        print(f"compile_fail/check.sh proved: {line}")
    if wrong:
        print(said)
    return bool(wrong)


if __name__ == "__main__":
    sys.exit(main(*sys.argv[1:]))
