"""Which proved functions call what: those of examples and programs, in files that name `bitvec` or records, and no
other library of the repository."""
import re

from library import BITVEC, RECORDS, TOP
from referring import rust
from referring.sources import files

CALLED = re.compile(r"\bin_place::(\w+)|(?<![.\w])([A-Z]\w+)(?:::<[^()]*?>)?::([a-z]\w*)|(?<!\bbit)(?<!\bnumber)\.([a-z]\w*)(?:::<[^()]*?>)?\(")
# Methods that iterators, slices and options of std have, too.
SHARED = {"count", "iter_mut", "or", "resize", "some"}
# Of a name that several types have, a caller's method is the one of such a trait: a bit and a number have names of their own there.
TRAITS = {"BitQueries", "BitEdits", "BitField", "BitFieldMut"}
OTHERS = re.compile(r"\b(bitvec_\w+)(?:::|\.specs)")


def callers(lines):
    """The functions of crates that stand on `bitvec` or records, and aren't tests: the crate, the path, and the name and the item of each."""
    for crate in (it for it in lines if it != RECORDS and not it.endswith("_tests") and {BITVEC, RECORDS} & {*lines[it][1]}):
        for path, file in files(crate, "src", "rt"):
            for item in rust.read(crate, path, file)[0]:
                of = f"{item.of[0]}::" if item.kind == "impl" else f"{item.name}::" if item.kind == "trait" else ""
                yield from ((crate, path, f"{of}{it.name}", it) for it in (item.items if of else [item]) if it.kind == "fn")


def is_plain(crate, path):
    """Whether a file names `bitvec` or records, and no other library of the repository."""
    text = path.read_text()
    return any(f"{it}::" in text for it in (BITVEC, RECORDS)) and {*OTHERS.findall(text)} <= {crate, "bitvec_test_support"}


def by_entry(model):
    """The callers of each call that have a clause."""
    methods, found = {}, {}
    for entry in (it for name in model.by_name if "::" in name for it in model.by_name[name]):
        methods.setdefault(entry.name.rpartition("::")[2], []).append(entry)
    for crate, path, name, item in callers(model.sources.lines):
        is_proved = any(line.strip().startswith("ensures") for line in item.head) and is_plain(crate, path)
        for place, of, function, method in {*CALLED.findall(re.sub(r"//.*", "", item.body))} if is_proved else ():
            entries = model.by_name.get(place or f"{of}::{function}", methods.get(method, ()))
            entry = only(entries, place) if (place or function or method) not in SHARED else None
            shown = f"`{name}` (`{crate}`, `{path.relative_to(TOP / 'crates' / crate)}`)"
            if entry and shown not in found.setdefault(entry, []):
                found[entry].append(shown)
    return found


def only(entries, is_in_place):
    """The call that is meant, or None where it may be several, of which not one is of such a trait."""
    if is_in_place:
        entries = [it for it in entries if it.scope.crate == "bitvec_in_place"]
    entries = [it for it in entries if it.name.partition("::")[0] in TRAITS] or entries
    return entries[0] if len(entries) == 1 else None
