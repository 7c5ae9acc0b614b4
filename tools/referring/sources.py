"""The sources of crates and of the kit, and what a name means there: an item of a source, or a word of a file of definitions."""
import functools
import os
import pathlib
import re
import shutil

import library
from library import TOP, Refused
from referring import antt, rust

DECLARED = re.compile(r"Rattle\.(\w+)\.specs\.declared\.(?:[\w.]+?\.)??(\w+)(?:\.TheVariants)?$")
SPECS = re.compile(r"Rattle\.(\w+)\.specs\.([\w.]+)$")
# Where the kit has what isn't a crate's, and how often a file may pass on what another passes on.
FOLDERS, DEPTH = {"mathlib": "antt/port/mathlib/src", "lib": "logic/Lib"}, 6


class Sources:
    """The sources of these crates and of all below, read. Files of definitions are read when a name leads there."""

    def __init__(self, *roots):
        rt = shutil.which("rt")
        if not rt:
            raise Refused("there is no kit: put its rt on the path")
        self.kit = pathlib.Path(os.path.realpath(rt)).parent.parent / "rattle"
        self.lines = library.lines_of(TOP)
        self.crates = library.below(self.lines, *roots)
        self.items, self.uses, self.named, self.passed_on = {}, {}, {}, {}
        for crate in self.crates:
            for path, file in files(crate, "src", "rt"):
                self.add(crate, file, *rust.read(crate, path, file))

    def add(self, crate, file, items, uses):
        self.items[crate, file], self.uses[crate, file] = items, uses
        for item in items:
            if item.kind not in ("impl", "mod"):
                self.named.setdefault((crate, item.name), item)
        for is_public, path, name, alias in uses:
            if is_public:
                self.passed_on.setdefault((crate, alias), []).append((path.split("::")[0], name))

    def item(self, crate, name):
        """The item of this name that a crate defines or passes on, or None."""
        passed = (self.item(*it) for it in self.passed_on.get((crate, name), ()) if it[0] in self.crates)
        return self.named.get((crate, name)) or next(filter(None, passed), None)

    def specs(self):
        """The files of definitions of these crates."""
        for crate in self.crates:
            for _, file in files(crate, "specs", "antt"):
                yield self.file(f"Rattle.{crate}.specs.{file.replace('/', '.')}")

    @functools.lru_cache(None)
    def file(self, path):
        """The file of definitions that an import means by its path, or None where there is none."""
        specs = SPECS.match(path)
        crate, name = specs.groups() if specs else path.split(".", 1)
        folders = [TOP / "crates" / crate / "specs", self.kit / crate / "specs"] if specs else [self.kit / FOLDERS.get(crate, crate)]
        places = [folder / (name.replace(".", "/") + ".antt") for folder in folders]
        return next((antt.read(crate, it, name) for it in places if it.is_file()), None)

    @functools.lru_cache(None)
    def find(self, path, name, depth=DEPTH):
        """What an import means: a word, the item of a source that the prover declares, or None."""
        declared = DECLARED.match(path)
        if declared or "." not in path or not depth:
            return self.item(*declared.groups()) if declared and declared[1] in self.crates else None
        file = self.file(path)
        if not file:
            return self.find_passed(path, name, depth)
        passed = (self.find(it, only or name, depth - 1) for it, only, called in file.passed if called == name or only is None)
        return file.words.get(name) or next(filter(None, passed), None)

    def find_passed(self, path, name, depth):
        """The word of a file that a library passes on as its own."""
        specs = SPECS.match(path)
        library = specs and self.file(f"Rattle.{specs[1]}.specs.Lib")
        for passed, only, alias in library.passed if library else ():
            called = alias or passed.rpartition(".")[2]
            if only is None and f"{specs[2]}.".startswith(f"{called}."):
                return self.find(passed + specs[2][len(called):], name, depth - 1)
        return None


def files(crate, folder, ending):
    """The files of a crate's folder, each with its name there."""
    top = TOP / "crates" / crate / folder
    return ((path, path.relative_to(top).with_suffix("").as_posix()) for path in sorted(top.rglob(f"*.{ending}")))
