"""Whether the tests that an edit names fail with it: in the package for Rust where that has them, or else as `rt` runs them with no proof."""
import os
import re
import subprocess

from tree import Tree


def said_by(words, folder, **more):
    """What a command says, on both streams."""
    return subprocess.run(words, cwd=folder, stdout=subprocess.PIPE, stderr=subprocess.STDOUT, universal_newlines=True, **more).stdout


class Package:
    """The package for Rust, written of a tree."""

    def __init__(self, tree):
        self.tree, self.folder = tree, tree.folder / "out/package"
        self.folder.mkdir(parents=True)
        # without what a debugger reads, and for all edits in one folder, so that little is compiled anew
        self.settings = {**os.environ, "CARGO_TARGET_DIR": str(tree.folder / "out/target"), "CARGO_PROFILE_DEV_DEBUG": "0"}

    def write(self):
        """What is wrong, if the package can't be written."""
        ran = subprocess.run(["tools/rust", str(self.folder)], cwd=self.tree.folder, stdout=subprocess.PIPE, stderr=subprocess.STDOUT, universal_newlines=True)
        return ran.stdout if ran.returncode else None

    def place_of(self, crate, test):
        """Where the package has a test of a crate of tests, or of a file by hand: what cargo is told, and the test's name there."""
        module, short = test.rpartition("::")[0].split("::")[0], crate.partition("_")[2]
        if (self.folder / f"src/tests/{short}/{module}.rs").is_file():
            return ("--lib",), f"tests::{short}::{test}"
        if (self.folder / f"tests/callers/{short}/{module}.rs").is_file():
            return ("--test", "callers"), f"{short}::{test}"
        if (self.folder / f"tests/{crate}/main.rs").is_file():
            return ("--test", crate), test
        return None

    def results(self, target, names):
        """What became of tests: those that failed, those that ran, and what was said."""
        said = said_by(["cargo", "test", "--offline", "--no-fail-fast", *target, "--", "--exact", *names], self.folder, env=self.settings)
        return results_in(said)


def results_in(said):
    """The tests that failed, and those that ran, by what a run says of each, and all that it said."""
    return set(re.findall(r"^test (\S+) \.\.\. FAILED", said, re.M)), set(re.findall(r"^test (\S+) \.\.\. ", said, re.M)), said


def run_by_rt(tree, crate):
    """What becomes of a crate's tests with no proof; or, of a program, of its own run."""
    folder = tree.folder / "crates" / crate
    if (folder / "src/lib.rt").is_file():
        return results_in(said_by(["rt", "try", "--test"], folder))
    words = (folder / "args").read_text().splitlines() if (folder / "args").is_file() else []
    given = folder / "stdin"
    with given.open("rb") if given.is_file() else open(os.devnull, "rb") as stdin:
        ran = subprocess.run(["rt", "try", "--", *words], cwd=folder, stdin=stdin, stdout=subprocess.PIPE, stderr=subprocess.PIPE, universal_newlines=True)
    same = ran.stdout == (folder / "stdout").read_text()
    return set() if same else {"stdout"}, {"stdout"}, ran.stdout + ran.stderr


def outcome(tree, package, wanted):
    """Which of these tests fail, which pass, and which didn't run, each a crate and a name; and what was said of these."""
    places = {}
    for crate, test in wanted:
        where = package.place_of(crate, test)
        target, name = where or (("rt", crate), test)
        places.setdefault(target, {})[name] = crate, test
    failed, ran, told = set(), set(), ""
    for target, names in places.items():
        wrong, tried, said = run_by_rt(tree, target[1]) if target[0] == "rt" else package.results(target, names)
        failed |= {test for name, test in names.items() if name in wrong}
        ran |= {test for name, test in names.items() if name in tried}
        told += "" if tried >= {*names} else said
    return failed, ran, told


def fault_of(tree, package, edit):
    """What is wrong with an edit's rows, if anything."""
    with tree.edited(edit):
        refused = package.write()
        if refused:
            return f"tools/rust stops:\n{refused}"
        wanted = {(crate, test) for crate, tests in edit.rows for test in tests}
        failed, ran, said = outcome(tree, package, wanted)
    if ran != wanted:
        return f"{named(wanted - ran)} didn't run:\n{said[-2000:]}"
    if failed != wanted:
        return f"{named(wanted - failed)} didn't fail"


def named(tests):
    return ", ".join(sorted(" ".join(it) for it in tests))


def tried(edits):
    """Tries the rows of edits, and returns how many edits are wrong."""
    edits, wrong = [it for it in edits if it.rows], 0
    if not edits:
        return 0
    with Tree() as tree:
        package = Package(tree)
        refused = package.write()
        if refused:
            raise SystemExit(refused)
        wanted = {(crate, test) for edit in edits for crate, tests in edit.rows for test in tests}
        failed, ran, said = outcome(tree, package, wanted)
        if failed or ran != wanted:
            raise SystemExit(f"{said[-4000:]}\nedits.py: with no edit, {named(failed or wanted - ran)} fails or doesn't run")
        for edit in edits:
            fault = fault_of(tree, package, edit)
            print(f"{edit.name}: row: {fault or 'as it has to be'}", flush=True)
            wrong += bool(fault)
    return wrong
