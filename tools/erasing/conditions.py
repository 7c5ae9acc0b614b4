"""Conditions: what tests the clauses of public calls when they run, by the table."""
import re

import clauses
import table
from clauses import Strange, Term, match, pattern
from negation import failing
from tokens import Unknown, is_mark, is_word, solid, text

COUNTS = [(pattern(form), rust) for form, rust in table.COUNTS]
TERMS = [(pattern(form), rust, words) for form, rust, words in table.TERMS]
CONDITIONS = [(pattern(form), rust, words) for form, rust, words in table.CONDITIONS]
# The rows of the table by which something was written.
used = set()
# The parameters that a message shows as they are, and those of which it shows the window. Of others, as slices, it shows the length.
SHOWN = ("u32", "u64", "u128", "usize", "Range<usize>", "Window", "Part", "Rest")
VIEWS = ("BitSlice<", "BitSliceMut<")
WIDE = {"≤": "<=", "<": "<", "≡": "=="}


def unused():
    """The rows of the table by which nothing was written."""
    rows = [(*row[:2],) for row in [*COUNTS, *TERMS, *CONDITIONS]]
    return [str(row[0]) for row in rows if row not in used] + [head for head in [*table.NOTHING, *table.STAYS] if head not in used]


class Test:
    """The test of one clause: its Rust, its words, and the values that its message shows."""

    def __init__(self, rust, words, values):
        self.rust, self.words, self.values = rust, words, values


class Conditions:
    """Makes the tests of one function. `kinds` has the types of its parameters."""

    def __init__(self, file, name, kinds, names, trait):
        self.file, self.name, self.kinds, self.names, self.trait, self.values = file, name, kinds, names, trait, {}

    def test(self, clause):
        """The test of a clause; None where Rust grants it."""
        head = next((node.text for node in solid(clause.group.inner) if is_word(node)), "")
        if head in table.NOTHING or head in table.STAYS:
            used.add(head)
            return None
        try:
            term = clauses.clause(clause.group.inner)
            self.values = {}
            for form, rust, words in CONDITIONS:
                found = {}
                if match(form, term, found):
                    used.add((form, rust))
                    wide = term.head in WIDE and rust.startswith("{a}") and self.is_wide(term)
                    test = self.filled(rust, found, wide)
                    return Test(test, self.said(words, found), list(self.values.items()))
        except Strange:
            pass
        raise Unknown(self.file, clause.line, f"no line of the table tests `{clause.words}`, which {self.name} requires")

    def is_wide(self, term):
        return term.head in ("+", "*") or any(self.is_wide(it) for it in term.below)

    def filled(self, rust, found, wide):
        rust = re.sub(r"#(\w+)", lambda it: self.count(found[it[1]]), rust)
        rust = re.sub(r"(\{(\w+)\}) as u128", lambda it: it[1] if self.kinds.get(str(found[it[2]])) == "u128" else f"u128::from({it[1]})", rust)
        return re.sub(r"\{(\w+)\}", lambda it: self.trait if it[1] == "trait" else self.number(found[it[1]], wide), rust)

    def said(self, words, found):
        return re.sub(r"\{(\w+)\}", lambda it: self.shown(found[it[1]]), words)

    def count(self, term):
        for form, rust in COUNTS:
            found = {}
            if match(form, term, found):
                used.add((form, rust))
                if rust.startswith("#"):
                    return self.count(found["list"])
                name = str(found.get("list", Term("self")))
                base = self.names.get(name, name)
                made = rust.replace("{list}", base)
                self.values[f"{name}.len".replace("self.len", "len")] = made
                return made
        raise Strange()

    def number(self, term, wide=False):
        """A term as a number in Rust."""
        rust = self.plain_number(term, wide)
        if wide and not term.below or wide and term.head in (".", "app"):
            return f"crate::conditions::wide({rust})"
        return rust

    def plain_number(self, term, wide):
        for form, rust, words in TERMS:
            found = {}
            if match(form, term, found):
                used.add((form, rust))
                made = self.filled(rust, found, False)
                if "::" not in made or "(" in made:
                    self.values[self.filled_words(words, found)] = made
                return made
        if term.head == "." and term.below[1].head == "BITS":
            self.values[str(term)] = f"{self.path(term.below[0])}::BITS"
            return f"({self.path(term.below[0])}::BITS as usize)"
        if term.head in ("+", "*", "/", "%", "-"):
            left, right = (self.number(it, wide) for it in term.below)
            return f"{left} {term.head} {right}" if term.head in "*/%" else f"({left} {term.head} {right})"
        if term.head == "^":
            return "(1u128 << 64)" if str(term) == "2 ^ 64" else self.strange()
        if not term.below or term.head == ".":
            return self.leaf(term)
        return self.strange()

    def strange(self):
        raise Strange()

    def filled_words(self, words, found):
        return re.sub(r"\{(\w+)\}", lambda it: str(found[it[1]]), words)

    def path(self, term):
        words = str(term).replace(".", "::")
        return f"<{words} as crate::proved::store::BitStore>" if "::" in words else words

    def leaf(self, term):
        name = str(term)
        if name.isdigit():
            return name
        base = name.split(".")[0]
        if base not in self.kinds and base != "self":
            raise Strange()
        rust = ".".join([self.names.get(base, base)] + name.split(".")[1:])
        kind = self.kinds.get(name, "")
        if any(view in kind for view in VIEWS):
            self.values[f"{name}.window"] = f"{rust}.window()"
        elif name not in self.kinds and name != "self" or re.sub(r"^&(mut ?)?", "", kind) in SHOWN:
            self.values[name] = rust
        return f"({rust} as usize)" if self.kinds.get(name) == "u32" else rust

    def shown(self, term):
        for form, _, words in TERMS:
            found = {}
            if match(form, term, found):
                return self.filled_words(words, found)
        return str(term)


def kinds_of(item, eraser):
    """The parameters of a function, by name, with their types."""
    kinds = {}
    for piece in eraser.pieces(item.parameters.inner):
        words = solid(piece)
        at = next((k for k, node in enumerate(words) if is_mark(node, ":")), None)
        if at is not None:
            kinds[words[at - 1].text] = text(words[at + 1:])
    return kinds


def tests_of(item, stated, eraser, trait):
    """The tests of a function's conditions, which the item `stated` has, its trait's or itself."""
    kinds = kinds_of(stated, eraser)
    names = dict(zip(kinds, kinds_of(item, eraser)))
    made = Conditions(eraser.file, item.name, kinds, names, trait)
    return [test for test in (made.test(clause) for clause in stated.requires()) if test]


def bare(rust):
    """A value without parentheses around a cast."""
    return re.sub(r"^\((\S+ as usize)\)$", r"\1", rust)


def written(test, name, indent):
    """A test as Rust. Where it fails it shows copies, so that no value has a place in memory where it doesn't."""
    values = ", ".join(f'("{label}", &{{ {bare(rust)} }})' for label, rust in test.values)
    return (f"{indent}if {failing(test.rust)} {{\n"
            f'{indent}    crate::conditions::fails("{name}", "{test.words}", &[{values}]);\n{indent}}}\n')
