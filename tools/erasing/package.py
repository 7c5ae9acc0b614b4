"""Writes the package: a module for each crate, private, and the public ones that `bitvec` has."""
import functools
import pathlib
import re
import shutil

import calls
import imports as imports_of
import native
import renaming
import table
from contracts import Contracts, words_of
from erase import Eraser
from items import parsed
from testing import Everything, Tester
from tokens import Group, Unknown, is_group, is_mark, is_word, solid, text, tree

TOP = pathlib.Path(__file__).resolve().parents[2]
HAND = TOP / "bindings/rust"
# Names of what needs memory.
MEMORY = ("Vec", "BitVec", "RepeatError")
KEYWORDS = {"move": "moves", "bitrecord": "record"}
# The crate above `bitvec` that is a module of the package; it needs memory.
RECORDS = "bitrecord"


class Refused(Exception):
    """What the tool can't do, said in one line."""


def libraries():
    """The crates below `bitvec`, lowest first."""
    lines = [line for line in (TOP / "crates.txt").read_text().splitlines() if not line.startswith("#")]
    below = {name: names.split() for name, _, names in (line.partition(":") for line in lines)}
    if "bitvec" not in below:
        raise Refused("crates.txt has no line `bitvec:`")
    found = []

    def add_below(crate):
        for name in below[crate]:
            if name in below and name not in found:
                add_below(name)
                found.append(name)

    add_below("bitvec")
    return found


def crates_of(pattern):
    """The crates of these names."""
    names = [re.split(r"[\s:]", line)[0] for line in (TOP / "crates.txt").read_text().splitlines() if not line.startswith("#")]
    return [name for name in names if re.fullmatch(pattern, name)]


def module_of(crate):
    name = crate.removeprefix("bitvec_")
    return KEYWORDS.get(name, name)


@functools.lru_cache(None)
def sources(crate):
    """The files of a crate, by their path below src/, with their items."""
    folder = TOP / "crates" / crate / "src"
    found = {}
    for path in sorted(folder.rglob("*.rt")):
        name = str(path.relative_to(TOP))
        found[path.relative_to(folder)] = (name, renaming.renamed(parsed(tree(path.read_text(), name), name)))
    if pathlib.Path("lib.rt") not in found:
        raise Refused(f"crates/{crate}/src has no lib.rt")
    return found


class Package:
    def __init__(self, out):
        self.out, self.crates = out, [*libraries(), RECORDS]
        self.parsed = {crate: sources(crate) for crate in self.crates}
        self.known = Everything()
        self.paths = {crate: f"crate::proved::{module_of(crate)}" for crate in self.crates} | {"bitvec": "crate"}
        self.exports = self.exported()
        self.macros, self.contracts, self.untested = set(), Contracts(TOP), []
        for files in self.parsed.values():
            for _, items in files.values():
                self.known.read(items)
                self.macros |= {item.name for item in items if item.kind == "macro_rules"}
        self.functions = {home: set() for home in self.paths.values()}
        for rows in self.exports.values():
            for crate, path, _ in rows:
                self.functions[self.paths[crate]].add(path.split("::")[-1])
                file = self.parsed[crate].get(pathlib.Path(f"{path}.rt"))
                self.functions[self.paths[crate]] |= {it.name for it in file[1] if it.kind == "fn"} if file else set()

    def exported(self):
        """What `bitvec` passes on to users: for each of its modules, the crate, the name and the name there."""
        found = {}
        for path, (name, items) in sources("bitvec").items():
            rows = []
            for item in items:
                if item.kind == "use" and not item.hidden:
                    rows += self.uses(item, name)
            found[path.stem] = rows
        found["record"] = [(RECORDS, name, name) for name in self.passed_by_records()]
        self.known.public |= {row[1].split("::")[-1] for rows in found.values() for row in rows}
        return found

    @staticmethod
    def passed_by_records():
        """The names of the functions and types of records."""
        _, items = sources(RECORDS)[pathlib.Path("lib.rt")]
        uses = [solid(item.head) for item in items if item.kind == "use" and item.is_public]
        return [node.text for words in uses for node in (words[-2].inner if is_group(words[-2]) else words[-2:-1]) if is_word(node)]

    def uses(self, item, file):
        """The rows of `use crate::{a, b as c};`."""
        words = solid(item.head)
        crate = words[0].text
        if crate not in self.paths:
            raise Unknown(file, item.line, f"bitvec passes on what is of `{crate}`")
        last = words[-2]
        names = Eraser.pieces(last.inner) if is_group(last) else [words[3:-1]]
        for piece in names:
            parts = [it for it in solid(piece)]
            at = next((k for k, it in enumerate(parts) if is_word(it, "as")), None)
            path = text(parts[:at])
            yield crate, path, parts[-1].text if at is not None else path.split("::")[-1]

    # what needs memory

    @functools.lru_cache(None)
    def gated(self, crate):
        """The modules of a crate that name what needs memory."""
        files = self.parsed[crate]
        tops = {path.parts[0].removesuffix(".rt") for path in files} - {"lib"}
        return {top for top in tops if all(self.names_memory(items) or not has_code(items)
                                           for path, (_, items) in files.items() if path.parts[0].removesuffix(".rt") == top)}

    @staticmethod
    def names_memory(items):
        return any(names_word(item, MEMORY) for item in items)

    # writing

    def write(self):
        source, self.calls = self.out / "src", calls.Calls(self)
        lines = ["//! The proved text, a module a crate, without contracts, ghosts and tactics.\n\n"]
        for crate in self.crates:
            self.write_crate(crate, source / "proved" / module_of(crate))
            lines.append(self.gated_module(crate) + f"pub(crate) mod {module_of(crate)};\n")
        (source / "proved/mod.rs").write_text("".join(lines) + self.passed_untested())
        self.write_public(source)
        self.write_by_hand(source)

    @staticmethod
    def gated_module(name):
        """What guards a module that needs memory as a whole."""
        return '#[cfg(feature = "alloc")]\n' if module_of(name) == module_of(RECORDS) else ""

    def write_by_hand(self, source):
        """The package's own files, and the modules by hand."""
        version = (TOP / "VERSION").read_text().strip()
        (self.out / "Cargo.toml").write_text((HAND / "Cargo.toml").read_text().replace("@VERSION@", version))
        for name in ("README.md", "FROM_BITVEC.md"):
            shutil.copy(HAND / name, self.out)
        shutil.copy(TOP / "CHANGELOG.md", self.out)
        shutil.copy(TOP / "LICENSE", self.out)
        for path in (HAND / "src").glob("*.rs"):
            shutil.copy(path, source)
        shutil.copytree(HAND / "benches", self.out / "benches")
        (source / "calls.rs").write_text(self.calls.written())
        native.adapt(source)
        (source / "definitions.rs").write_text(self.contracts.written())
        modules = "".join(f"{self.gated_module(name)}pub mod {name};\n" for name in sorted([*self.exports, "definitions"]) if name != "lib")
        lib = source / "lib.rs"
        if "// modules\n" not in lib.read_text():
            raise Refused(f"{HAND / 'src/lib.rs'} has no line `// modules`")
        lib.write_text(lib.read_text().replace("// modules\n", modules))

    def write_crate(self, crate, folder):
        self.wrapped = {}
        gated = self.gated(crate)
        files = self.parsed[crate]
        for path in sorted(files, key=lambda it: it != pathlib.Path("lib.rt")):
            if path == pathlib.Path("lib.rt"):
                continue
            file, items = files[path]
            eraser = self.eraser(crate, file)
            target = folder / path.with_suffix(".rs")
            target.parent.mkdir(parents=True, exist_ok=True)
            target.write_text(self.finished(eraser, items) + self.wrappers(eraser, items, path))
            self.note_untested(crate, path, eraser.traits_untested, gated)
        file, items = files[pathlib.Path("lib.rt")]
        for item in items:
            self.gate(item, gated)
        folder.mkdir(parents=True, exist_ok=True)
        public = [it.name for it in items if it.kind == "mod" and it.is_public]
        (folder / "mod.rs").write_text(self.finished(self.eraser(crate, file), items) + self.exported_macros(files) + self.passed(public) + self.uses_untested(crate))

    def note_untested(self, crate, path, traits, gated):
        """Notes the private traits of a file."""
        if traits and len(path.parts) > 1:
            raise Refused(f"crates/{crate}/src/{path} has a trait that users reach: it has to stand in a file of the crate's own folder")
        gate = '#[cfg(feature = "alloc")]\n' if path.stem in gated else ""
        self.untested += [(crate, path.stem, trait, gate) for trait in traits]

    def uses_untested(self, crate):
        """Passes on the private traits of a crate."""
        return "".join(f"\n{gate}pub(crate) use {file}::{trait};\n" for home, file, trait, gate in self.untested if home == crate)

    def passed_untested(self):
        """The module of all private traits."""
        lines = "".join(f"    {gate.strip()}\n" * bool(gate) + f"    pub(crate) use super::{module_of(crate)}::{trait};\n" for crate, _, trait, gate in self.untested)
        return f"\n/// What only the library calls of the traits that users reach.\n#[allow(unused_imports)]\npub(crate) mod untested {{\n{lines}}}\n"

    @staticmethod
    def exported_macros(files):
        """Passes on the macros that modules of a crate export, as `#[macro_export]` does."""
        return "".join(f"\npub(crate) use {path.stem}::{item.name};\n" for path, (_, items) in files.items() if path != pathlib.Path("lib.rt")
                       for item in items if item.kind == "macro_rules" and item.has_attribute("macro_export"))

    def eraser(self, crate, file):
        eraser = Eraser(file, self.paths[crate], self.paths, Tester(self.known), self.contracts)
        eraser.macros |= self.macros
        return eraser

    @staticmethod
    def gate(item, gated):
        """Guards a module that needs memory, and what is passed on from it."""
        first = next((node.text for node in solid(item.head) if is_word(node)), "")
        if item.kind in ("use", "mod") and first in gated:
            item.attributes.append(Group("[", tree('cfg(feature = "alloc")', ""), 0, 0))

    def wrappers(self, eraser, items, path):
        """The functions of a file that users call, which test their conditions."""
        made, eraser.words = [], words_of(items)
        for item in items:
            if item.kind == "fn" and item.is_public and item.name in self.functions[eraser.home]:
                if wrapper := eraser.tester.wrapper(eraser, item):
                    made.append(wrapper)
                    self.wrapped.setdefault(path.stem, []).append(item.name)
        if not made:
            return ""
        return ("\n/// What users call: each tests its conditions.\npub(crate) mod tested {\n    #[allow(unused_imports)]\n    use super::*;\n\n"
                + "\n".join(made) + "}\n")

    def passed(self, public):
        """The module by which a crate passes on the functions that test."""
        lines = "".join(f"    pub use super::{module}::tested::{{{', '.join(names)}}};\n"
                        for module, names in sorted(self.wrapped.items()) if module not in public)
        return f"\n/// What users call: each tests its conditions.\npub(crate) mod tested {{\n{lines}}}\n" if lines else ""

    # the public modules

    def write_public(self, source):
        for module, rows in self.exports.items():
            if module == "lib":
                continue
            _, items = sources(RECORDS)[pathlib.Path("lib.rt")] if module == "record" else sources("bitvec")[pathlib.Path(f"{module}.rt")]
            docs = "".join(item.docs[0].text + "\n" for item in items if item.kind == "inner doc")
            lines = [self.public_row(*row) for row in rows]
            (source / f"{module}.rs").write_text(docs + "\n" + "".join(lines) + self.by_hand(module))

    def public_row(self, crate, path, name):
        """The line that passes a name on, or the module whose functions test."""
        home = self.paths[crate]
        gate = '#[cfg(feature = "alloc")]\n' if self.needs_memory(crate, path) else ""
        last = path.split("::")[-1]
        tail = f" as {name}" if name != last else ""
        file = self.parsed[crate].get(pathlib.Path(f"{path}.rt"))
        if file and any(it.kind == "mod" and it.name == path and it.is_public for it in self.lib(crate)):
            docs = "".join(f"    {it.docs[0].text}\n" for it in file[1] if it.kind == "inner doc")
            names = [it.name for it in file[1] if it.kind == "fn" and it.is_public]
            rows = "".join(f"    pub use {home}::{path}::{'tested::' if self.is_tested(it) else ''}{it.name};\n" for it in file[1] if it.name in names and it.kind == "fn")
            return f"pub mod {name} {{\n{docs}\n{rows}}}\n"
        function = self.function(crate, last)
        tested = "tested::" if function and self.is_tested(function) else ""
        old = "#[allow(deprecated)]\n" if function and function.has_attribute("deprecated") else ""
        return f"{gate}{old}pub use {home}::{tested}{path}{tail};\n"

    def lib(self, crate):
        return self.parsed[crate][pathlib.Path("lib.rt")][1]

    @functools.lru_cache(None)
    def function(self, crate, name):
        for _, items in self.parsed[crate].values():
            for item in items:
                if item.kind == "fn" and item.name == name and item.is_public:
                    return item
        return None

    def is_tested(self, item):
        """Whether a function has a condition that is tested."""
        return any(clause.words.split()[0] not in table.NOTHING for clause in item.requires())

    def needs_memory(self, crate, path):
        gated = self.gated(crate)
        last = path.split("::")[-1]
        for item in self.lib(crate):
            words = [node.text for node in solid(item.head) if is_word(node)] + [node.text for group in solid(item.head) if is_group(group) for node in group.inner if is_word(node)]
            if item.kind == "use" and last in words[1:]:
                return words[0] in gated
        return False

    @staticmethod
    def by_hand(module):
        """What stands in bindings/rust for a module, behind what is passed on."""
        path = HAND / f"names/{module}.rs"
        return "\n" + path.read_text() if path.exists() else ""

    @staticmethod
    def finished(eraser, items, memory="crate::memory"):
        """The text of a file, with what it imports of the modules by hand."""
        written = eraser.items(items, None)
        if eraser.tester.tests:
            written = imports_of.pruned(written, eraser.tester.known.required)
        imports = []
        if eraser.uses_vec:
            imports.append(f"use {memory}::Vec;\n")
        if "try_extend(" in written and ".try_extend(" in written:
            imports.append(f"use {memory}::TryExtend;\n")
        imports += [f"use crate::older::{name};\n" for name in sorted(eraser.newer)]
        if eraser.calls_untested:
            imports.append("#[allow(unused_imports)]\nuse crate::proved::untested::*;\n")
        written = Package.imported(written, "".join(imports))
        return re.sub(r"\n{3,}", "\n\n", re.sub(r"[ \t]+\n", "\n", written)).strip() + "\n"

    @staticmethod
    def imported(written, imports):
        """A file's text with imports behind what it says of itself."""
        begin = re.match(r"(\s*//![^\n]*\n)*\s*", written).end()
        return written[:begin] + imports + written[begin:]


def has_code(items):
    return any(item.kind not in ("inner doc", "inner attribute", "mod", "ghost") for item in items)


def names_word(item, words):
    parts = [item.head, item.after, item.generics] + ([item.body.inner] if item.body else []) + ([item.parameters.inner] if item.parameters else [])
    return any(names_in(part, words) for part in parts)


def names_in(nodes, words):
    return any(names_in(node.inner, words) if isinstance(node, Group) else is_word(node, *words) for node in nodes)
