"""Writes the program `bitdo` as an example of the package: its work from the text, and the rows of its table for a test."""
import json
import shutil
import sys

import erase
from erase import Eraser
from package import HAND, TOP, Package, sources
from testing import Tester
from tokens import Group, is_group, solid, text, word

WORK = "bitdo_work"


class ProgramEraser(Eraser):
    """Writes a file of the program, which has std's streams."""

    kept = erase.KEPT + ("io", "str")
    known_macros, core = erase.MACROS + ("writeln",), "std"
    moved = {("std", "alloc"): "crate::bitdo::names"}

    def matched(self, nodes):
        """`let [a, b] = .. else {}` too."""
        pattern = solid(nodes)[0]
        if not is_group(pattern, "["):
            return super().matched(nodes)
        names = ", ".join(node.text for node in solid(pattern.inner) if node.text != ",")
        equals = next(k for k, node in enumerate(nodes) if str(node) == "=")
        begin = max(k for k, node in enumerate(nodes) if str(node) == "else")
        arms = [word(f" [{names}] => ({names}), _ => "), nodes[-1], word(" ")]
        return [word(f"let ({names}) = match"), *nodes[equals + 1:begin], Group("{", arms, 0, 0)]


def write(package, out):
    """Writes the example with its test, and those by hand."""
    paths = {crate: "crate::bitdo::names" for crate in package.paths} | {WORK: "crate::bitdo"}
    folder = out / "examples/bitdo/bitdo"
    folder.mkdir(parents=True)
    for path, (file, items) in sources(WORK).items():
        tester = Tester(package.known)
        tester.renames = tester.tests = False
        written = Package.finished(ProgramEraser(file, paths[WORK], paths, tester), items, "crate::bitdo::names")
        if path.name == "lib.rt":
            written = written.replace("\nmod arguments;", "\n#![allow(clippy::all)]\n\nmod arguments;", 1) + "\npub mod names;\n"
        (folder / ("mod.rs" if path.name == "lib.rt" else path.with_suffix(".rs"))).write_text(written)
    shutil.copy(HAND / "examples/bitdo/main.rs", out / "examples/bitdo/main.rs")
    shutil.copy(HAND / "examples/bitdo/names.rs", folder / "names.rs")
    for path in (HAND / "examples").glob("*.rs"):
        shutil.copy(path, out / "examples")
    (out / "tests/bitdo").mkdir(parents=True)
    shutil.copy(HAND / "tests/bitdo.rs", out / "tests/bitdo/main.rs")
    (out / "tests/bitdo/rows.rs").write_text(rows())


def rows():
    """All rows of golden/bitdo.txt but those that take something from the process: words, input, status, and what is printed."""
    sys.path.insert(0, str(TOP / "golden"))
    import tables
    made = ""
    for run in tables.read(TOP / "golden/bitdo.txt"):
        if not run.lacks and run.source == "bytes" and is_text(run.words):
            words = ", ".join(json.dumps(it.decode()) for it in run.words)
            made += f"    ({run.line}, &[{words}], &{list(run.input)}, {run.status}, {json.dumps(run.printed.decode())}),\n"
    return f"/// The line of each row, its words, its input, its status, and what is printed.\npub const ROWS: &[(u32, &[&str], &[u8], u8, &str)] = &[\n{made}];\n"


def is_text(words):
    """Whether each word is text, as those of a test in one process are."""
    try:
        return all(it.decode() is not None for it in words)
    except UnicodeDecodeError:
        return False
