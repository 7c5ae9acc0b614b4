#!/usr/bin/env python3
"""keeping.py [CRATE..]: lays into the crates' out/ of this clone the libraries that `rt ci` kept on this machine of exactly these sources, lowest
first, so that `rt lib` doesn't prove them again: these with all below, or all. Its status is 0 where all of these stand built then.
`tools/proofs pack` and `tools/release` run it.

What is kept, and by which sum, `rt` itself says: its own module is asked, so each file is compared with its sum, and a library of other
sources, or that stands on one, is left as it is. One that is built already stays. Where `rt` has no such names any more, this lays
nothing, and `rt lib` proves."""
import importlib.machinery
import importlib.util
import os
import pathlib
import shutil
import subprocess
import sys

import library
from library import TOP


def rt_itself():
    """The module of the `rt` on the path."""
    real = os.path.realpath(shutil.which("rt") or "")
    sys.path.insert(0, os.path.dirname(real))
    loader = importlib.machinery.SourceFileLoader("rt_itself", real)
    module = importlib.util.module_from_spec(importlib.util.spec_from_loader("rt_itself", loader))
    sys.dont_write_bytecode = True
    loader.exec_module(module)
    return module


def lay(rt, crate, kept):
    """Whether a crate's library is built, or was kept and stands in its out/ now."""
    rlib = pathlib.Path(crate.folder, "out/rlib")
    if crate.is_built():
        kept.is_built(crate)
        return True
    shutil.rmtree(rlib, ignore_errors=True)
    rlib.mkdir(parents=True)
    if not kept.give(crate, False, kept.key(crate)):
        return False
    kept.is_built(crate)
    (rlib / "stamp").write_text(crate.stamp(), encoding="utf-8")
    return True


def main(names):
    os.chdir(TOP)
    rt = rt_itself()
    wanted = library.below(library.lines_of(TOP), *names)
    crates = [it for it in rt.rtlib.crates_below(str(TOP)) if not it.is_program and not it.is_static and (not names or it.name in wanted)]
    rt.Crate.allowed = rt.handles_of(str(TOP))
    kept, laid = rt.Kept(crates), set()
    for crate in crates:
        if all(it.name in laid or it not in crates for it in crate.below()) and lay(rt, crate, kept):
            laid.add(crate.name)
    print(f"{len(laid)} of {len(crates)} libraries stand built")
    return len(laid) < len(crates)


def lay_kept(*names):
    """Lays what was kept, in a process of its own. Whether all stand built then; where it fails, `rt lib` proves."""
    words = [sys.executable, pathlib.Path(__file__).resolve(), *names]
    return subprocess.run(words, stdout=sys.stderr, stderr=subprocess.DEVNULL).returncode == 0


if __name__ == "__main__":
    library.main("keeping", main)
