"""One list of calls: each call of views, be it of a trait or of a view's own, as a method of views, sequences and arrays.

The traits stay, for generic code. A method's documents and contract are those of the call that it passes on to."""
import re

import told
import widening
from contracts import words_of
from erase import Eraser
from testing import is_of_trait, type_of
from tokens import solid, text

# The traits of the calls, with the order that each asks for, and what it is called through.
READING = {"BitQueries": "SliceOrder", "BitField": "FieldOrder", "IterCalls": "BitOrder", "OnesCalls": "SliceOrder", "SplitCalls": "BitOrder"}
WRITING = {"BitEdits": "SliceOrder", "BitFieldMut": "FieldOrder", "EditParts": "BitOrder", "EditSplits": "BitOrder"}
WALKS = {"Ones": "IterOnes", "Zeros": "IterZeros"}
# The types: their generics but for the order, the type, how it is read, and how it is written.
KINDS = {
    "BitSlice": ("'a, T: BitStore", "BitSlice<'a, T, O>", "*self", None),
    "BitSliceMut": ("'a, T: BitStore", "BitSliceMut<'a, T, O>", "self.as_ref()", "self.as_mut()"),
    "BitVec": ("T: BitStore, M: Allocator", "BitVec<T, O, M>", "self.as_bitslice()", "self.as_mut_bitslice()"),
    "BitArray": ("T: BitStore, const N: usize", "BitArray<T, O, N>", "self.as_bitslice()", "self.as_mut_bitslice()"),
}
OWNERS = ("BitVec", "BitArray")
# Calls of a view that an owner has already, or that say something of views only.
OF_VIEWS = re.compile(r"as_bitslice|as_mut_bitslice|len|is_empty|window|iter|into_slice|.*_lent|.*unchecked.*|from_.*|try_from.*|empty.*|into_bit|stand_at")
# Bodies of what borrows from a view that is made for it.
BORROWING = {
    "as_mut": "self.as_mut_bitslice()",
    "part_mut": "self.as_mut_bitslice().into_part({})",
    "bit_mut": "self.as_mut_bitslice().into_bit({})",
    "get_mut": "{}.get_mut(self.as_mut_bitslice())",
    "first_mut": "0usize.get_mut(self.as_mut_bitslice())",
    "last_mut": "self.len().wrapping_sub(1).get_mut(self.as_mut_bitslice())",
    "split_apart_mut": "self.as_mut_bitslice().into_apart({})",
    "domain_mut": "self.as_mut_bitslice().into_domain_mut()",
    "bit_domain_mut": "self.as_mut_bitslice().into_bit_domain_mut()",
}
HEAD = """//! One list of calls, as methods of views, sequences and arrays. Each passes on to the proved call whose documents it has.
#![allow(deprecated, clippy::wrong_self_convention, clippy::should_implement_trait)]

use crate::domain::*;
#[cfg(feature = "alloc")]
use crate::memory::Allocator;
use crate::prelude::*;

use core::cmp::Ordering;
"""


class Calls:
    """Writes the module of the calls."""

    def __init__(self, package):
        self.own, traits, own = {}, {}, []
        for crate, files in package.parsed.items():
            for file, items in files.values():
                for item in items:
                    row = (package.eraser(crate, file), words_of(items), item, [it for it in item.items or [] if it.kind == "fn" and not it.hidden])
                    if item.kind == "trait" and item.name in {**READING, **WRITING}:
                        traits[item.name] = row
                    elif item.kind == "impl" and not is_of_trait(item) and type_of(item) == "BitSliceMut":
                        own.append(row)
                    elif item.kind == "impl" and not is_of_trait(item) and type_of(item) in OWNERS:
                        self.own.setdefault(type_of(item), set()).update(it.name for it in item.items if it.kind == "fn" and it.is_public)
        self.rows = [(kind, name, *traits[name]) for kind in KINDS for name in {**READING, **WRITING} if name in READING or KINDS[kind][3]]
        self.rows += [(kind, None, *row) for kind in OWNERS for row in own]

    def written(self):
        return HEAD + "".join(self.block(*row) for row in self.rows)

    def block(self, kind, trait, eraser, words, item, methods):
        """The impl of a type that has the calls of a trait, or of a view."""
        generics, name, _, _ = KINDS[kind]
        order = {**READING, **WRITING}[trait] if trait else self.order(item)
        if trait == "SplitCalls":
            for method in methods:
                method.bound = "P: FnMut(usize, &bool) -> bool"
        eraser.words = words
        made = [self.call(kind, trait, eraser, method) for method in methods
                if (trait or method.is_public) and not self.is_left_out(kind, trait, method.name)]
        gate = '#[cfg(feature = "alloc")]\n' if kind == "BitVec" else ""
        parts = generics.split(", ")
        at = next(k for k, it in enumerate(parts) if it.startswith("T:")) + 1
        parts.insert(at, f"O: crate::prelude::{order}")
        return f"\n{gate}impl<{', '.join(parts)}> {name} {{\n" + "\n".join(made) + "}\n" if made else ""

    def is_left_out(self, kind, trait, name):
        return name in self.own.get(kind, ()) or bool(OF_VIEWS.fullmatch(name)) and (trait is None or "unchecked" in name)

    @staticmethod
    def order(item):
        return "SliceOrder" if "SliceOrder" in text(item.head) else "BitOrder"

    def call(self, kind, trait, eraser, method):
        """One method, which passes on."""
        _, name, read, write = KINDS[kind]
        pieces = Eraser.pieces
        first = [str(node) for node in solid(pieces(method.parameters.inner)[0])]
        writes = "mut" in first
        wide = widening.widened(pieces(method.generics[1:-1]), pieces(method.parameters.inner), "self.len()")
        generics = [eraser.header(widening.nodes(it)) for it in wide.generics]
        generics += [method.bound] if getattr(method, "bound", None) else []
        own = "BitSliceMut<'_, T, O>" if writes and kind in OWNERS else "Self"
        generics = [re.sub(r"&mut Self\b", f"&mut {own}", it) for it in generics]
        after = self.answer(eraser.header(method.after), kind, trait, method)
        parameters = [eraser.header(widening.nodes(it)) for it in wide.parameters[1:]]
        receiver = wide.parameters[0] if first != ["self"] else "self" if kind == "BitSlice" else "&self"
        signature = f"pub fn {method.name}{'<' + ', '.join(generics) + '>' if generics else ''}({', '.join([receiver, *parameters])}){after}"
        body = self.body(kind, trait, method.name, writes, first, wide)
        docs = eraser.documents(method) + told.lines(method, eraser.contracts.lines(method, eraser.words))
        old = ["#[deprecated]"] if method.has_attribute("deprecated") else []
        lines = [*docs, *old, "#[inline]", "#[track_caller]", signature + " {", *[f"    {it}" for it in [*wide.lines, body]], "}"]
        return "".join(f"    {line}\n" for line in lines)

    def answer(self, after, kind, trait, method):
        """The type that a method answers."""
        life = "'a" if kind == "BitSlice" else "'_"
        more = ", P" if trait == "SplitCalls" else ""
        after = re.sub(r"Self::(\w+)", lambda it: f"crate::slice::{WALKS.get(it[1], it[1])}<{life}, T, O{more}>", after) if trait in READING else after
        if trait is None and after.strip() == "-> Self":
            after = "-> BitSlice<'_, T, O>"
        return " " + after.strip() if after.strip() else ""

    def body(self, kind, trait, name, writes, first, wide):
        """The call that is passed on to."""
        _, _, read, write = KINDS[kind]
        arguments = "".join(f", {it}" for it in wide.names)
        if trait is None and name in BORROWING:
            return BORROWING[name].format(", ".join(wide.names))
        home = trait or ("BitSliceMut" if writes else "BitSlice")
        if writes:
            return f"{home}::{name}(&mut {write}{arguments})" if kind != "BitSliceMut" else f"{home}::{name}(self{arguments})"
        by_value = first == ["self"] or trait is None
        if name == "as_ref":
            return read
        shown = ("self" if by_value else "&self") if kind == "BitSlice" else f"{'' if by_value else '&'}{read}"
        return f"{home}::{name}({'self' if shown == '&self' else shown}{arguments})"
