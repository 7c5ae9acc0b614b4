"""Writes the tests: those of the library stand in the package, those of its callers beside it."""
import json
import pathlib
import re
import shutil
import sys

import erase
from erase import Eraser
from package import HAND, TOP, Package, Refused, crates_of, sources
from testing import Tester
from tokens import Group, is_group, is_mark, is_word, solid, text, word

# Crates of tests, which name the library's crates and so stand among them, and crates of callers, which name `bitvec`. What
# `bitrecord` is tested by isn't written, since the package hasn't that.
TESTS = crates_of(r"bitvec_test_support|bitvec_\w+_tests|bitrecord_tests")
CALLERS = crates_of(r"bitvec_(?:\w+_)?examples")
# Files that aren't written, and why.
LEFT_OUT = {
    ("bitvec_test_support", "streams"): "readers and writers of the program `bitdo`, which the package hasn't",
    ("bitvec_top_tests", "program"): "of `bitdo`",
    ("bitvec_top_tests", "program_memory"): "of `bitdo`",
    ("bitvec_top_tests", "program_streams"): "of `bitdo`",
    ("bitvec_top_tests", "checked_operations"): "of the functions for C, which the package hasn't",
    ("bitvec_top_tests", "checked_runs"): "of the functions for C",
}
# Files that stand in bindings/rust/tests in place of the erased ones.
BY_HAND = {("bitvec_test_support", "refusing"): "refusing.rs"}
# Tests of the package by hand.
BESIDE = ("native", "by_elements", "pieces", "closures", "conditions", "laws", "memory", "names", "random", "rows", "walks", "golden", "readme")
MACROS = erase.MACROS + ("vec", "format")
HASHER = "std::collections::hash_map::DefaultHasher"


class TestEraser(Eraser):
    """Writes a file of tests: what takes the runtime in Rattle takes none, or that of bindings/rust/tests."""

    forms = tuple(form for form in erase.FORMS if form not in ("HostRuntime", "Abort"))
    kept = erase.KEPT + ("mem",)
    known_macros, core = MACROS, "std"

    def __init__(self, file, home, paths, tester, rattle, memory):
        super().__init__(file, home, paths, tester)
        self.rattle = rattle
        self.moved = {("std", "alloc"): memory, ("std", "process"): rattle}

    def word(self, nodes, at, out):
        node = nodes[at]
        if node.text in ("assert", "vec", "format") and at + 2 < len(nodes) and is_mark(nodes[at + 1], "!"):
            group = next((it for it in nodes[at + 2:at + 4] if isinstance(it, Group)), None)
            words = solid(group.inner) if group else []
            if words and is_word(words[0], "rt") and is_mark(words[1], ";"):
                inner = group.inner[group.inner.index(words[1]) + 1:]
                out.extend([node, nodes[at + 1], Group("(", self.code(inner), group.line, group.end)])
                return nodes.index(group, at) + 1
            if words and is_word(words[0], "in"):
                inner = group.inner[group.inner.index(words[0]) + 1:]
                out.append(word(f"{self.rattle}::{node}_in!"))
                out.append(Group("(", self.code(inner), group.line, group.end))
                self.uses_vec = self.uses_vec or node.text == "vec"
                return nodes.index(group, at) + 1
        if node.text == "clone" and out and is_mark(out[-1], "."):
            behind = solid(nodes[at + 1:at + 6])
            if len(behind) > 1 and not is_mark(behind[1], "?"):
                out.append(word("try_clone", node.line))
                return at + 1
        if node.text == "collect" and out and is_mark(out[-1], ".") and (group := self.arguments(nodes, at)) and solid(group.inner):
            out.append(word("collect_in", node.line))
            return at + 1
        return super().word(nodes, at, out)

    def write_fn(self, item, outer):
        if any(is_word(node, "HostRuntime") for node in solid(item.parameters.inner)):
            if text(solid(item.parameters.inner)).replace(" ", "") != "rt:HostRuntime" or not item.has_attribute("test"):
                self.refuse(item.line, "a runtime that isn't the one parameter of a test")
            item.parameters = Group("(", [], 0, 0)
            item.body = Group("{", [word("\n    let rt = HostRuntime;")] + item.body.inner, 0, 0)
        if item.body:
            item.body = self.bound(item.body)
        return super().write_fn(item, outer)

    @staticmethod
    def bound(body):
        """A body whose last expression is a `match`, which is bound to a name: what it lends ends before the function's own names."""
        nodes = solid(body.inner)
        at = max((k for k, node in enumerate(body.inner) if is_word(node, "match")), default=None)
        if at is None or not is_group(nodes[-1], "{") or not all(is_mark(node, ";") for node in solid(body.inner[:at])[-1:]):
            return body
        if any(is_mark(node, ";") or is_group(node, "{") and node is not nodes[-1] for node in body.inner[at:]):
            return body
        return Group("{", [*body.inner[:at], word("let answer = "), *body.inner[at:], word(";\n    answer\n")], body.line, body.end)


    def write_use(self, item, outer):
        """An import; that of the default hasher by its older path, since std has the newer one only from 1.76 on."""
        written = super().write_use(item, outer)
        return written.replace("use std::hash::{DefaultHasher, ", f"use {HASHER};\nuse std::hash::{{") if written else written


class Tests:
    def __init__(self, package):
        self.package = package
        self.paths = dict(package.paths)
        self.paths.update({crate: f"crate::tests::{crate.removeprefix('bitvec_')}" for crate in TESTS})

    def write(self, out):
        names = [self.write_crate(crate, out / "src/tests", self.paths, "crate::tests::rattle", "crate::memory") for crate in TESTS]
        (out / "src/tests/mod.rs").write_text("//! The library's tests.\n#![allow(deprecated, unused)]\n\n"
                                              + "".join(f"mod {name};\n" for name in ["rattle", *names]))
        self.rattle(out / "src/tests", "crate::memory")
        folder = out / "tests/callers"
        callers = {crate: f"crate::{crate.removeprefix('bitvec_')}" for crate in CALLERS}
        names = [self.write_crate(crate, folder, {**callers, "bitvec": "fehimbary"}, "crate::rattle", "fehimbary::memory") for crate in CALLERS]
        (folder / "main.rs").write_text("//! Callers of the library, and their tests.\n#![allow(deprecated, unused)]\n\n"
                                        + "".join(f"mod {name};\n" for name in ["rattle", *names]))
        self.rattle(folder, "fehimbary::memory")

        self.write_by_hand(out / "tests")

    def write_by_hand(self, folder):
        """The tests by hand, and the list of the conditions that one of them has to break."""
        for name in BESIDE:
            (folder / name).mkdir(parents=True, exist_ok=True)
            shutil.copy(HAND / "tests" / f"{name}.rs", folder / name / "main.rs")
        (folder / "page.rs").write_text(self.page())
        (folder / "golden/rows.rs").write_text(self.rows())
        told = "".join(f'    "{words}",\n' for words in sorted(self.package.known.told))
        (folder / "conditions/list.rs").write_text(f"/// Each condition that a public call tests.\npub const CONDITIONS: &[&str] = &[\n{told}];\n")

    @staticmethod
    def page():
        """The program of docs/RUST.md, as a test."""
        found = re.search(r"^```rust > src/main.rs\n(.*?)^```$", (TOP / "docs/RUST.md").read_text(), re.M | re.S)
        if not found:
            raise Refused("docs/RUST.md has no program `src/main.rs`")
        return f"//! The program of the page.\n\n{found[1]}\n#[test]\nfn the_program_ends_well() {{\n    main();\n}}\n"

    @staticmethod
    def rows():
        """The rows of golden/bitdo.txt that end well, with all that the program has: words, commands, and what is printed."""
        sys.path.insert(0, str(TOP / "golden"))
        import tables
        rows = ""
        for run in tables.read(TOP / "golden/bitdo.txt"):
            if run.status == 0 and not run.lacks and run.source == "bytes" and len(run.words) == 6:
                words = ", ".join(json.dumps(word.decode()) for word in run.words)
                rows += f"    ({run.line}, [{words}], {json.dumps(run.input.decode())}, {json.dumps(run.printed.decode())}),\n"
        return f"/// The line of each row, its words, its commands, and what is printed.\npub const ROWS: &[(u32, [&str; 6], &str, &str)] = &[\n{rows}];\n"

    @staticmethod
    def rattle(folder, memory):
        source = (HAND / "tests/rattle.rs").read_text()
        (folder / "rattle.rs").write_text(source.replace("/// The runtime that", f"pub use {memory}::{{AllocError, Allocator, Global, TryExtend, Vec}};\n\n/// The runtime that", 1))

    def write_crate(self, crate, folder, paths, rattle, memory):
        name = crate.removeprefix("bitvec_")
        home = paths.get(crate)
        files = sources(crate)
        macros = {item.name for _, items in files.values() for item in items if item.kind == "macro_rules"}
        for path, (file, items) in files.items():
            stem = path.stem
            target = folder / name / ("mod.rs" if path == pathlib.Path("lib.rt") else path.with_suffix(".rs"))
            target.parent.mkdir(parents=True, exist_ok=True)
            if (crate, stem) in LEFT_OUT:
                continue
            if (crate, stem) in BY_HAND:
                shutil.copy(HAND / "tests" / BY_HAND[crate, stem], target)
                continue
            tester = Tester(self.package.known)
            tester.renames = tester.tests = False
            eraser = TestEraser(file, home, paths, tester, rattle, memory)
            eraser.macros |= macros
            items = [item for item in items if not self.is_left_out(crate, item)]
            written = Package.finished(eraser, items, memory)
            target.write_text(Package.imported(written, f"use {rattle}::*;\n"))
        return name

    @staticmethod
    def is_left_out(crate, item):
        first = next((node.text for node in solid(item.head) if is_word(node)), "")
        return item.kind in ("mod", "use") and (crate, first) in LEFT_OUT
