"""Writes functions: those that a user calls test their conditions first, and what the library calls within itself doesn't.

A method with conditions becomes two: NAME tests and calls NAME_proved, which has the body and which the library's own calls
name. Where NAME is also that of a method that has no condition here or in std, the one method tests and has the body.

No user calls what only the library may call of a public trait. What no type may bring anew stands in a private trait, TraitUntested;
another method takes a value that only the library can make, `Met`."""
import dataclasses
import re

import conditions
import table
import widening
from closures import edits_of
from erase import Eraser
from items import Clause
from tokens import Group, Token, is_group, is_mark, is_word, solid, text, word

# Methods of std's types that the text calls by the name of a method here.
OF_STD = {"set", "swap", "copy_within", "rotate_left", "rotate_right", "take", "replace", "insert", "remove", "swap_remove", "drain",
          "retain", "split_off", "split_at_mut", "windows", "chunks", "chunks_exact", "rchunks", "rchunks_exact", "get_unchecked",
          "get_unchecked_mut", "copy_from_slice", "swap_with_slice"}


class Everything:
    """What is known of all crates: the traits' conditions and the names that users can reach."""

    def __init__(self):
        self.public = set()
        self.required = {}
        self.with_conditions, self.without = set(), set()
        self.told = set()
        # Methods of public traits that only the library calls: those that types may bring anew, and the names of the others.
        self.open_twins, self.open_hidden, self.moved = set(), set(), set()

    def read(self, items, outer=None):
        """Notes the methods of items, and which of them test conditions."""
        for item in items:
            if item.kind == "trait":
                self.required[item.name] = {it.name: it for it in item.items if it.kind == "fn"}
            if item.kind == "fn" and outer is not None and outer.kind in ("trait", "impl"):
                tests = item.requires() and not self.is_hidden(item, outer)
                (self.with_conditions if tests else self.without).add(shape(item))
                self.read_open(item, outer)
            if item.kind == "impl" and not is_of_trait(item) or item.kind in ("trait", "mod"):
                self.read(item.items or [], item)

    def read_open(self, item, outer):
        """Notes a method of a public trait of which there is something that only the library may call."""
        if outer.kind != "trait" or not self.is_open(outer) or is_sealed(item):
            return
        if is_final(item):
            self.moved |= {item.name} if item.hidden else {f"{item.name}_proved"} if item.requires() else set()
        elif item.hidden:
            self.open_hidden.add(shape(item))
        elif item.requires():
            self.open_twins.add(shape(item))

    def is_open(self, trait):
        """Whether users reach a trait."""
        return trait.name in self.public and trait.is_public

    def is_hidden(self, item, outer):
        """Whether no user calls a method of a trait or of an inherent impl."""
        if (outer.name, item.name) in table.TESTED:
            return False
        if item.hidden or outer.hidden:
            return True
        return outer.name not in self.public if outer.kind == "trait" else not item.is_public or type_of(outer) not in self.public

    def inner(self, name, count, has_self):
        """Whether a method of so many parameters beside `self` is two."""
        return (name, count, has_self) in self.with_conditions - self.without and name not in OF_STD


def is_final(item):
    """Whether no type brings a trait's method anew."""
    return any(is_word(node, "final") for node in item.before)


def is_sealed(item):
    """Whether a method takes a value that only the library can make."""
    return "Sealed" in text(item.parameters.inner)


def shape(item):
    """A method's name, how many parameters it has beside `self`, and whether it has that."""
    pieces = Eraser.pieces(item.parameters.inner)
    has_self = bool(pieces) and any(is_word(node, "self") for node in solid(pieces[0])[:4]) and not any(is_mark(a, ":") and is_mark(b, ":") for a, b in zip(pieces[0], pieces[0][1:]))
    return item.name, len(pieces) - has_self, has_self


def is_of_trait(item):
    depth = 0
    for at, node in enumerate(item.head):
        depth += is_mark(node, "<") - (is_mark(node, ">") and not is_mark(item.head[at - 1], "-", "="))
        if depth == 0 and is_word(node, "for"):
            return True
    return False


def type_of(outer):
    """The name of the type that an inherent impl is of."""
    words = outer.head
    begin = Eraser.end_of_generics(words) if is_mark(solid(words)[0], "<") else 0
    return next(node.text for node in words[begin:] if is_word(node))


def by_ghost(item, outer):
    """A method of a trait of std, whose condition a ghost member states: `ghost can_index = { λ view i. .. };`."""
    for ghost in outer.items:
        if ghost.kind == "ghost" and ghost.name == f"can_{item.name}" and is_mark(ghost.head[0], "="):
            words = solid(ghost.body.inner)
            end = next(k for k, node in enumerate(words) if is_mark(node, "."))
            names = dict(zip([node.text for node in words[1:end]], ["self", *conditions.kinds_of(item, Eraser)]))
            clause = Clause("requires", "", Group("{", spaced(words[end + 1:], names), 0, 0), ghost.line)
            return dataclasses.replace(item, clauses=[clause])
    return item


def spaced(nodes, names):
    """Nodes with names written anew, and space between them."""
    made = []
    for node in nodes:
        if is_group(node):
            node = Group(node.open, spaced(solid(node.inner), names), node.line, node.end)
        elif is_word(node):
            node = word(names.get(node.text, node.text), node.line)
        made += [node] if is_mark(node, ".") or made and is_mark(made[-1], ".") else [Token("space", " ", node.line), node]
    return made


class Tester:
    """Writes the functions of a crate."""

    def __init__(self, known):
        self.known, self.renames, self.tests = known, True, True

    def inner_name(self, name, count, before=None):
        """The name in a call of so many arguments, `.name(..)` or, with what stands `before` it, `before::name(..)`, and whether the
        call takes the value that only the library can make."""
        if before is None and name == "extend":
            return "try_extend", False
        if not self.tests or before is not None and is_word(before) and (before.text[:1].islower() or before.text == "Vec"):
            return name, False
        shapes = [(name, count, True)] if before is None else [(name, count, False), (name, count - 1, True)]
        if self.renames and (inner := [it for it in shapes if self.known.inner(*it)]):
            return f"{name}_proved", any(it in self.known.open_twins for it in inner)
        return name, any(it in self.known.open_hidden for it in shapes)

    def stated(self, eraser, item, outer):
        """The function that states a method's conditions, itself or its trait's, and whether no user calls it."""
        kind = getattr(outer, "kind", None)
        if kind not in ("trait", "impl") or not self.tests:
            return item, True
        if kind == "impl" and outer.name:
            stated = self.known.required.get(outer.name, {}).get(item.name)
            if stated is None:
                return by_ghost(item, outer), False
            is_tested = (outer.name, item.name) in table.TESTED
            return stated, stated.hidden and not is_tested or outer.name not in self.known.public
        return item, self.known.is_hidden(item, outer)

    def function(self, eraser, item, outer):
        """A function as Rust, or its two."""
        stated, hidden = self.stated(eraser, item, outer)
        kind = getattr(outer, "kind", None)
        is_inherent = kind == "impl" and not outer.name
        if item.hidden and item.is_public and is_inherent:
            item.public = [word("pub(in crate)")]
            item.show()
        is_told = kind is None and item.is_public or not hidden and (kind == "trait" or is_inherent)
        is_twin = self.known.inner(*shape(item))
        writer = Writer(eraser, item, is_told, self.tests)
        writer.is_wide = is_inherent and item.is_public and self.tests and type_of(outer) in widening.TYPES
        if self.tests and kind in ("trait", "impl"):
            writer.asks = not is_twin and shape(item) in self.known.open_hidden
            writer.twin_asks = is_twin and shape(item) in self.known.open_twins
        is_moved = self.tests and kind == "trait" and is_final(item) and self.known.is_open(outer)
        if not hidden and (kind != "trait" or item.body is not None):
            writer.test(stated, trait_of(eraser, outer), (outer.name, item.name) in table.DELEGATED, self.known.told)
        elif not hidden and self.tests:
            item.panics = [test.words for test in conditions.tests_of(item, stated, eraser, trait_of(eraser, outer))]
        is_foreign = kind == "impl" and outer.name and outer.name not in self.known.required
        if is_moved and item.hidden and not is_sealed(item):
            item.show()
            eraser.own.append(writer.one())
            return ""
        if hidden or is_foreign or not stated.requires() or not is_twin:
            return writer.one()
        if is_moved:
            writer.moved = eraser.own
        if (kind, outer.name, item.name) in {("trait", *it) for it in table.DELEGATED}:
            self.renames = False
            body = eraser.body(item)
            self.renames = True
            return writer.two(body)
        return writer.dispatched() if kind == "trait" and not is_final(item) else writer.two()

    def wrapper(self, eraser, item):
        """A free function for users: it tests the conditions, and calls the one that has the body; None where nothing is to be tested."""
        writer = Writer(eraser, dataclasses.replace(item, lead="    ", attributes=[it for it in item.attributes if "deprecated" in text(it.inner)]), True, False)
        writer.test(item, "", False, self.known.told)
        return writer.wrapper() if writer.tests else None


def trait_of(eraser, outer):
    """The trait that a method is of, with its parameters."""
    if outer.kind == "trait":
        return re.sub(r":[^,>]*", "", eraser.head_of_trait(text(outer.head))[0]).strip()
    trait = eraser.trait_of(outer)[0]
    return text(trait).strip() if trait else ""


class Writer:
    """Writes one function. `is_told` says whether its documents have its contract, `asks` and `twin_asks` whether it and the one that
    the library calls take the value that only the library can make. If `moved` is a list, that takes the latter."""

    def __init__(self, eraser, item, is_told, is_inlined):
        self.eraser, self.item, self.is_told, self.is_inlined = eraser, item, is_told, is_inlined
        self.asks, self.twin_asks, self.moved = False, False, None
        self.indent = item.lead.rpartition("\n")[2]
        self.tests, self.is_wide = [], False

    def test(self, stated, trait, is_delegated, told):
        """Has the function test the conditions that `stated` has, but where another one tests them."""
        if not is_delegated:
            tests = conditions.tests_of(self.item, stated, self.eraser, trait)
            self.item.panics = [test.words for test in tests]
            told |= {f"{self.item.name} needs that {test.words}" for test in tests}
            self.tests += [conditions.written(test, self.item.name, self.indent + "    ") for test in tests]

    def head(self, *attributes):
        """What stands before the function's own words."""
        return self.eraser.before(self.item, attributes, self.is_told)

    def tested(self):
        return "\n" + "".join(self.tests).rstrip("\n") if self.tests else ""

    def signature(self, asks=False):
        """The words of the function that a user calls, whose arguments are wider than those of the text."""
        item = dataclasses.replace(self.item)
        if self.is_wide:
            lines = widening.in_place(item, self.eraser.pieces).lines
            self.tests[:0] = [f"{self.indent}    {line}\n" for line in lines]
        return self.eraser.signature(item, item.name, asks)

    def block(self, words):
        return f" {{\n{self.indent}    {words}\n{self.indent}}}"

    def one(self):
        """The function, which tests and has the body."""
        signature = self.signature(self.asks)
        if self.item.body is None:
            return self.head() + signature + ";"
        body = self.tested() + self.eraser.body(self.item)
        return self.head(*self.tracked(self.tests)) + self.quieted(signature, body) + " {" + body + "}"

    def two(self, body=None):
        """The method that tests, and the one that has the body. `body` is the first one's where it tests by what it calls."""
        signature = self.unmuted(self.signature())
        first = self.head(*self.tracked(True)) + signature + " {" + self.tested()
        first += body + "}" if body else f"\n{self.indent}    {self.call(self.inner(), self.twin_asks)}\n{self.indent}}}"
        within = self.eraser.body(self.item)
        second = self.quieted(self.second([*self.attributes("cfg", "inline"), *self.hints()]), within) + " {" + within + "}"
        if self.moved is None:
            return first + second
        self.moved.append(second)
        return first

    def dispatched(self):
        """A method of a trait that its types may bring, and the one that the library calls, which is the same where a type
        doesn't bring that one too."""
        return self.one() + self.second(["#[inline(always)]"]) + self.block(self.call(self.item.name))

    def wrapper(self):
        """A free function that tests, and calls the one that stands above it."""
        signature = self.unmuted(self.eraser.signature(self.item, self.item.name))
        call = "super::" + self.call(self.item.name).removeprefix("Self::")
        return self.head("#[inline]", "#[track_caller]") + signature + " {" + self.tested() + f"\n        {call}\n    }}\n"

    def inner(self):
        return f"{self.item.name}_proved"

    def inlining(self):
        return self.attributes("inline")

    def attributes(self, *names):
        """The function's own attributes of these names."""
        found = map(self.eraser.attribute, self.item.attributes)
        return [it for it in found if it and it.startswith(tuple(f"#[{name}" for name in names))]

    def hints(self):
        """What lets rustc inline the function in other crates, as the kit's compiler does, and name the line of a user's call."""
        inline = ["#[inline]"] if self.is_inlined and not self.inlining() else []
        return inline + ["#[track_caller]"] * bool(edits_of(self.item))

    def tracked(self, does_test):
        """The hints, with that a test that fails names the line of a user's call."""
        hints = self.hints()
        return hints + ["#[track_caller]"] * bool(does_test and "#[track_caller]" not in hints)

    def second(self, attributes):
        """The words of the method that the library calls."""
        lines = attributes if self.item.public or self.moved is not None else ["#[doc(hidden)]", *attributes]
        public = "pub(in crate) " if self.item.public else ""
        signature = self.eraser.signature(self.item, self.inner(), self.twin_asks)
        return "".join(f"\n{self.indent}{line}" for line in ["", *lines, public + signature]).replace(f"\n{self.indent}\n", "\n\n", 1)

    @staticmethod
    def unmuted(signature):
        """A signature whose parameters aren't written to."""
        return re.sub(r"(?<=[(\s])mut (?=\w+(?:[:,)]))", "", signature)

    def quieted(self, signature, body):
        """A signature whose parameters that only the contract names begin by a `_`."""
        words = set(re.findall(r"\w+", body))
        for name in conditions.kinds_of(self.item, self.eraser):
            if name not in words and self.is_inlined:
                signature = re.sub(rf"(?<=[(\s]){name}:", f"_{name}:", signature)
        return signature

    def call(self, name, asks=False):
        """A call of the function, or of one beside it, by the names of its own parameters."""
        names = list(conditions.kinds_of(self.item, self.eraser)) + [table.MET] * asks
        has_self = shape(self.item)[2]
        kinds = []
        for piece in self.eraser.pieces(self.item.generics[1:-1]):
            words = [it for it in solid(piece) if not is_word(it, "const")]
            if is_word(words[0]):
                kinds.append(words[0].text)
        turbofish = f"::<{', '.join(kinds)}>" if kinds else ""
        return f"{'self.' if has_self else 'Self::'}{name}{turbofish}({', '.join(names)})"
