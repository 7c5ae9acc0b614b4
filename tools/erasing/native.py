"""What the package has otherwise than the text, so that a program of `bitvec` finds it: types' defaults, comparisons of any two
kinds in place of those of one type, references that are written by `*bit = ..`, and what the modules by hand name."""
import re

from imports import pruned
from tokens import Unknown

DEFAULTS = {"T: BitStore": "T: BitStore = usize", "O: BitOrder": "O: BitOrder = crate::order::Lsb0", "const N: usize": "const N: usize = 1"}
# The types whose parameters have defaults, by their file.
TYPES = {"slice/view.rs": "BitSlice", "slice/view_mut.rs": "BitSliceMut", "owned/bit_vec.rs": "BitVec", "owned/array.rs": "BitArray"}
# Files, and their impls that stand in a module by hand, for more types.
BY_HAND = [
    ("slice/equality.rs", "PartialEq"),
    ("slice/comparison.rs", "PartialOrd"),
    ("slice/operators.rs", r"Bit\w+Assign<[^{]*?>"),
    ("owned/equality.rs", "PartialEq"),
    ("owned/array/equality.rs", "PartialEq"),
]
# The walks over bits that have more methods by elements: the file, the walk, its item, what it holds, and an item of a bit.
BY_ELEMENTS = [
    ("slice/iter.rs", "Iter", "BitRef<'a, T, O>", "", "BitRef::new(bit)"),
    ("slice/bit_iters.rs", "BitRefIter", "&'a bool", "bits.", "if bit { &true } else { &false }"),
    ("slice/bit_iters.rs", "BitValIter", "bool", "bits.", "bit"),
]
# Calls that stay out of line: all that is inlined into them would take the registers of a loop around the call.
OUT_OF_LINE = r"#\[inline\(always\)\](\s+fn (?:and|or|xor|and_not)_within_proved\()"
# Texts of a file, and what stands for each.
EDITS = [
    ("split/splitting.rs", "    pub(in crate::proved::split) rest:", "    pub(crate) rest:"),
    ("split/splitting.rs", "    pub(in crate::proved::split) finished:", "    pub(crate) finished:"),
    ("split/splitting.rs", "\n    pred: P,\n    way: PhantomData<W>,", "\n    pub(crate) pred: P,\n    pub(crate) way: PhantomData<W>,"),
    ("split/limiting.rs", "    pub(in crate::proved::split) parts:", "    pub(crate) parts:"),
    ("split/limiting.rs", "    pub(in crate::proved::split) count:", "    pub(crate) count:"),
    ("slice/operators.rs", "\nfn combine<", "\npub(crate) fn combine<"),
    ("slice/mod.rs", "\nmod operators;", "\npub(crate) mod operators;"),
    ("slice/bit_iters.rs", "    pub(in crate::proved::slice) bits:", "    pub(crate) bits:"),
    ("domain/mod.rs", "pub use reference_mut::BitRefMut;", "pub(crate) use reference_mut::BitPlace;\npub use crate::references::BitRefMut;"),
    ("owned/array.rs", "    pub fn new(elements: [T; N]) -> Self {", "    pub(crate) const fn of(elements: [T; N]) -> Self {"),
    ("slice/bit_domain.rs", "pub(in crate::proved::slice) fn bit_domain_mut_of<", "pub(crate) fn bit_domain_mut_of<"),
    ("slice/mod.rs", "\nmod bit_domain;", "\npub(crate) mod bit_domain;"),
    ("slice/split_apart.rs", "    fn into_sides(", "    pub(crate) fn into_sides("),
    ("edit/edits.rs", "{fill_with_in, for_each_in, ", "{"),
    ("edit/edits.rs", "fill_with_in::<T, O, F>(self.elements_mut(Sealed), window, f);", "let mut f = f;\n        crate::by_elements::refill::<T, O>(self.elements_mut(Sealed), window, |index, _| f(index));"),
    ("edit/edits.rs", "for_each_in::<T, O, F>(self.elements_mut(Sealed), window, f);", "crate::by_elements::refill::<T, O>(self.elements_mut(Sealed), window, f);"),
    ("slice/view_mut.rs", "pub(in crate::proved::slice) fn into_elements(", "pub(crate) fn into_elements("),
]


def adapt(source):
    """Adapts what was written of the proved text."""
    proved = source / "proved"
    for name, kind in TYPES.items():
        edit(proved / name, rf"(pub struct {kind}<)([^>]*)>", lambda it: it[1] + defaulted(it[2]) + ">")
    for name, trait in BY_HAND:
        remove(proved / name, trait)
    place = proved / "domain/reference_mut.rs"
    place.write_text(place.read_text().replace("BitRefMut", "BitPlace"))
    edit(proved / "owned/array.rs", r"\n *if [^\n]*\n *crate::conditions::fails\(\"new\"[^\n]*\n *\}", lambda _: "")
    for name, old, new in EDITS:
        edit(proved / name, re.escape(old), lambda _: new)
    edit(proved / "query/places.rs", r" Iterator\s+for Places<'a, T, O, W> \{\n    type Item = usize;\n", lambda it: it[0] + "\n    crate::ones::passing!();\n")
    edit(proved / "edit/edits.rs", OUT_OF_LINE, lambda it: "#[inline(never)]" + it[1])
    for name, walk, item, held, made in BY_ELEMENTS:
        form = f"{item}, [{held}view], [{held}indices], |bit| {made});\n"
        for way, trait, nth in ("forward", "Iterator", "nth"), ("backward", "DoubleEndedIterator", "nth_back"):
            added = f"\n    crate::by_elements::{way}!({form}    crate::by_elements::passing!({nth}, {form}"
            edit(proved / name, rf" {trait}\s+for {walk}<'a, T, O> \{{\n(    type Item = [^;]*;\n)?", lambda it: it[0] + added)


def remove(path, trait):
    """Takes the impls of a trait out of a file."""
    written, count = re.subn(rf"\nimpl<[^{{]*?> {trait}\s+for [^{{]*\{{\n.*?\n\}}\n", "", path.read_text(), flags=re.S)
    if count == 0:
        raise Unknown(path.name, 1, f"no impl of {trait}")
    path.write_text(pruned(written, ()))


def edit(path, pattern, new):
    """Replaces what stands in a file."""
    written, count = re.subn(pattern, new, path.read_text())
    if count == 0:
        raise Unknown(path.name, 1, f"no text `{pattern}`")
    path.write_text(written)


def defaulted(generics):
    """Generics with their defaults."""
    for old, new in DEFAULTS.items():
        generics = generics.replace(old, new)
    return generics
