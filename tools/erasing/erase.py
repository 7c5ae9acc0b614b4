"""Erases: writes the items of a source as Rust, without contracts, ghosts and tactics. It knows each form that it takes out or
writes anew, and stops with the file and the line at another."""
import pathlib
import re

import closures
import contracts
import examples
import laws
import narrowing
import renaming
import told
import widening
from items import parsed
from table import MET
from tokens import Group, Token, Unknown, is_group, is_mark, is_trivia, is_word, solid, text, tree, word

# Paths of Rattle's std that are another module here, and parts of std that are the same in Rust's `core`.
MOVED = {("std", "alloc"): "crate::memory", ("std", "simd", "prelude"): "crate::vectors"}
KEPT = ("ops", "marker", "fmt", "iter", "cmp", "hash", "slice", "mem", "array", "cell")
DERIVES = ("Clone", "Copy", "PartialEq", "Eq", "PartialOrd", "Ord", "Hash", "Debug", "Default")
ERASED_DERIVES = ("Drop", "Leak", "Error")
ATTRIBUTES = ("inline", "deprecated", "doc", "must_use", "repr", "cfg", "allow", "test")
ERASED_ATTRIBUTES = ("tactic", "error", "macro_export")
MACROS = ("write", "unreachable", "matches", "assert", "debug_assert")
# Words that begin a form of proofs, or one that Rust spells otherwise.
FORMS = ("requires", "ensures", "ghost", "prove", "invariant", "decreases", "final", "unsafe", "Model", "HostRuntime", "Abort")
# Traits of bounds that every type of Rust meets.
EVERY = ("Drop", "Leak")
# Impls that exist for proofs only.
PROOF_IMPLS = ("Model",)
# A method whose trait answers a result in Rattle and none in Rust: the trait here and the method's name there.
ANSWERS = {"Extend": ("crate::memory::TryExtend", "extend", "try_extend")}
# Methods of std that Rust has only from a newer version on: the trait that has each here, and its name there.
NEWER = {"div_ceil": ("RoundUp", "div_up"), "next_multiple_of": ("RoundUp", "multiple_up")}
# Methods that are right where a `usize` has 64 bits, as Rattle's has, by their trait and type. Elsewhere those of the trait stand.
OF_64_BITS = {("BitStore", "usize"): ("load_word", "store_word")}
# Type parameters that have a default in Rust.
DEFAULTS = {("BitVec", "A"): "crate::memory::Global"}


class Eraser:
    """Writes one file. `home` is the path of its crate's module; `paths` has that of each crate."""

    forms, kept, known_macros, moved, core = FORMS, KEPT, MACROS, MOVED, "core"

    def __init__(self, file, home, paths, tester, contracts=None):
        self.file, self.home, self.paths, self.tester, self.contracts = file, home, paths, tester, contracts
        self.macros, self.newer, self.uses_vec, self.words = set(), set(), False, {}
        # What stands in the private trait of the trait that is written, whether this file calls such, the names of all such traits,
        # and the arguments behind which a call passes the value that only the library can make.
        self.own, self.calls_untested, self.traits_untested, self.asked = [], False, [], set()

    def refuse(self, line, what):
        raise Unknown(self.file, line, what)

    # code

    def code(self, nodes):
        """Nodes of code, with the forms in it that Rust spells otherwise."""
        out, at = [], 0
        while at < len(nodes):
            node = nodes[at]
            if isinstance(node, Group):
                out.append(Group(node.open, self.code(node.inner) + self.met(node), node.line, node.end))
            elif is_word(node, "let") and (end := self.let_else(nodes, at)):
                out.extend(self.code(self.matched(nodes[at + 1:end])))
                at = end
                continue
            elif is_word(node):
                at = self.word(nodes, at, out)
                continue
            elif node.kind == "mark" and ord(node.text) > 127:
                self.refuse(node.line, f"`{node}` stands in code")
            else:
                out.append(node)
            at += 1
        return out

    @staticmethod
    def let_else(nodes, at):
        """Where `let .. = .. else {}` ends, before its `;`; None where none begins here."""
        end = next((k for k in range(at, len(nodes)) if is_mark(nodes[k], ";")), None)
        words = solid(nodes[at:end]) if end else []
        is_one = len(words) > 4 and is_group(words[-1], "{") and is_word(words[-2], "else") and not is_group(words[-3], "{")
        return end if is_one else None

    def matched(self, nodes):
        """`let .. = .. else {}` as a `match`, since Rust has it only from 1.65 on."""
        at = next(k for k, node in enumerate(nodes) if is_mark(node, "="))
        begin = max(k for k, node in enumerate(nodes) if is_word(node, "else"))
        pattern, block = solid(nodes[:at]), nodes[-1]
        bound = [node for node in solid(pattern[-1].inner) if not is_word(node, "mut")] if len(pattern) == 2 and is_group(pattern[1], "(") else []
        if len(bound) != 1 or not is_word(bound[0]):
            self.refuse(block.line, "a `let .. else` of another pattern than `Name(name)`")
        name = bound[0].text
        arms = [word(f" {pattern[0]}({name}) => {name}, _ => "), block, word(" ")]
        return [word(f"let {text(pattern[1].inner)} = match"), *nodes[at + 1:begin], Group("{", arms, block.line, block.end)]

    def word(self, nodes, at, out):
        """Puts what stands for a word of code, and gives where to go on."""
        node, before = nodes[at], solid(out[-6:])[-1:]
        behind = solid(nodes[at + 1:at + 6])
        is_field = bool(before) and is_mark(before[0], ".")
        if node.text in self.forms:
            self.refuse(node.line, f"`{node}` begins a form that isn't known here")
        if is_field and node.text in NEWER:
            self.newer.add(NEWER[node.text][0])
            out.append(word(NEWER[node.text][1], node.line))
            return at + 1
        if node.text == "clone" and is_field and len(behind) > 1 and is_group(behind[0], "(") and is_mark(behind[1], "?"):
            out.extend([node, behind[0]])
            return next(k for k in range(at, len(nodes)) if nodes[k] is behind[1]) + 1
        if behind and is_mark(behind[0], "!") and len(behind) > 1 and is_group(behind[1]):
            if node.text not in self.known_macros and node.text not in self.macros:
                self.refuse(node.line, f"the macro {node} isn't known")
        if not is_field and not (len(out) > 1 and is_mark(out[-1], ":") and is_mark(out[-2], ":")):
            if node.text == "Vec":
                self.uses_vec = True
            if found := self.path(nodes, at):
                out.append(word(found[0], node.line))
                return at + found[1]
        in_path = len(out) > 2 and is_mark(out[-1], ":") and is_mark(out[-2], ":")
        if (is_field or in_path) and (group := self.arguments(nodes, at)):
            count, leads = len(self.pieces(group.inner)), out[-3] if in_path else None
            name, asks = self.tester.inner_name(renaming.called(node.text, count, leads, self.core == "std"), count, leads)
            self.asked |= {id(group)} if asks else set()
            self.calls_untested |= name in self.tester.known.moved
            out.append(word(name, node.line))
            return at + 1
        out.append(node)
        return at + 1

    def met(self, group):
        """What a call passes behind its arguments, if it is one that only the library makes."""
        if id(group) not in self.asked:
            return []
        self.asked.discard(id(group))
        return [word(self.behind(group.inner) + MET)]

    @staticmethod
    def behind(nodes):
        """What stands between arguments or parameters and one more."""
        words = solid(nodes)
        return ", " if words and not is_mark(words[-1], ",") else ""

    def arguments(self, nodes, at):
        """The arguments of the call of a word, also behind a turbofish; None where it isn't called."""
        at += 1
        while at < len(nodes) and is_trivia(nodes[at]):
            at += 1
        if at + 2 < len(nodes) and is_mark(nodes[at], ":") and is_mark(nodes[at + 2], "<"):
            at += 2 + self.end_of_generics(nodes[at + 2:])
        return nodes[at] if at < len(nodes) and is_group(nodes[at], "(") else None

    def path(self, nodes, at):
        """What stands for the head of a path, and of how many nodes; None where it stays."""
        words, end = [nodes[at].text], at + 1
        while end + 2 < len(nodes) and is_mark(nodes[end], ":") and is_mark(nodes[end + 1], ":") and is_word(nodes[end + 2]):
            words.append(nodes[end + 2].text)
            end += 3
        leads = len(words) > 1 or (end + 1 < len(nodes) and is_mark(nodes[end], ":") and is_mark(nodes[end + 1], ":"))
        for head, target in self.moved.items():
            if tuple(words[:len(head)]) == head:
                return target, 3 * len(head) - 2
        if words[0] == "std" and len(words) > 1:
            if words[1] not in self.kept:
                self.refuse(nodes[at].line, f"std::{words[1]} isn't known")
            return self.core, 1
        if words[0] == "crate" and leads and words[1:3] not in widening.NAMES:
            return self.home, 1
        if leads and words[0] in self.paths:
            return self.paths[words[0]], 1
        return None

    def bounds(self, nodes):
        """Bounds without those that every type of Rust meets."""
        out, at = list(nodes), 0
        while at < len(out):
            if not is_word(out[at], *EVERY) or (at > 1 and is_mark(out[at - 1], ":") and is_mark(out[at - 2], ":")):
                at += 1
                continue
            before = next((k for k in range(at - 1, -1, -1) if not is_trivia(out[k])), None)
            behind = next((k for k in range(at + 1, len(out)) if not is_trivia(out[k])), None)
            if before is not None and is_mark(out[before], "+"):
                del out[before:at + 1]
            elif behind is not None and is_mark(out[behind], "+"):
                del out[at:behind + 1]
                while at < len(out) and is_trivia(out[at]):
                    del out[at]
            elif before is not None and is_mark(out[before], ":"):
                is_path = before > 2 and is_mark(out[before - 2], ":")
                del out[before + is_path:at + 1]
            else:
                self.refuse(out[at].line, f"`{out[at]}` is no bound here")
            at = max(0, (before or 0) - 1)
        return out

    def header(self, nodes):
        """Text of generics, types and bounds."""
        return text(self.code(self.bounds(nodes)))

    @staticmethod
    def pieces(nodes):
        """Nodes, cut at the commas outside `<..>`."""
        pieces, piece, depth = [], [], 0
        for at, node in enumerate(nodes):
            if is_mark(node, "<"):
                depth += 1
            elif is_mark(node, ">") and not (at and is_mark(nodes[at - 1], "-", "=")):
                depth -= 1
            if depth == 0 and is_mark(node, ","):
                pieces.append(piece)
                piece = []
            else:
                piece.append(node)
        return pieces + [piece] if solid(piece) else pieces

    # items

    def items(self, items, outer):
        before = self.words
        self.words = {**before, **contracts.words_of(items)}
        written = "".join(self.item(item, outer) for item in items)
        self.words = before
        return written

    def braced(self, item):
        """The items of a trait, an impl or a module, in their braces."""
        inner = self.items(item.items, item).strip("\n") + narrowing.ADDED.get(self.added_to(item), "").rstrip("\n")
        return "{\n" + inner + "\n" + item.lead.rpartition("\n")[2] + "}" if inner.strip() else "{}"

    def added_to(self, item):
        """The trait that a trait or an impl is, and the type that the impl is for."""
        kind = self.trait_of(item)[1] if item.kind == "impl" and item.name else []
        return item.name, next((node.text for node in kind if is_word(node)), None)

    def item(self, item, outer):
        if item.kind == "inner doc":
            return item.lead + self.linked(item.docs[0].text)
        if item.kind == "inner attribute":
            if self.attribute(item.attributes[0]):
                self.refuse(item.line, "an attribute of the file that isn't known")
            return ""
        if item.kind == "ghost":
            return ""
        if item.kind == "call":
            self.refuse(item.line, f"the macro {item.name} among items isn't known")
        write = getattr(self, f"write_{item.kind}")
        return write(item, outer) or ""

    def before(self, item, more=(), contract=False):
        """What stands before an item's own words: its documents, with the contract where it is told, its attributes and more of
        these, and who may name it."""
        indent = "\n" + item.lead.rpartition("\n")[2]
        parts = self.documents(item) + (laws.lines(item.name) if item.kind == "trait" else []) + (self.contracts.lines(item, self.words) if contract and self.contracts else [])
        parts += [it for it in map(self.attribute, item.attributes) if it] + list(more)
        return item.lead + "".join(part + indent for part in parts) + self.public(item)

    def documents(self, item):
        """The lines of an item's documents, whose examples are whole programs."""
        made, example = [], None
        for token in item.docs:
            line = token.text
            if line.strip() == "/// ```":
                made += [line] if example is None else [*self.example(item, example), line]
                example = [] if example is None else None
            elif example is None:
                made.append(self.linked(renaming.in_links(line)))
            else:
                example.append(self.in_example(line))
        return made

    @staticmethod
    def in_example(line):
        """A line of an example, as Rust has it."""
        line = line.replace("assert!(rt; ", "assert!(").replace("rt.alloc()", "Global").replace(".clone()?", ".clone()")
        return renaming.in_documents(line).strip().removeprefix("///").removeprefix(" ")

    def example(self, item, lines):
        """The lines of an example, with those that set up its names."""
        crate = pathlib.PurePath(self.file).parts[1]
        whole = examples.whole(f"{crate}::{item.name}", lines)
        if whole is None:
            self.refuse(item.line, f"bindings/rust/set_ups.txt sets up nothing for the example of `{crate}::{item.name}`")
        return [f"/// {line}".rstrip() for line in whole]

    def linked(self, line):
        """A line of documents, whose links are to this package's modules."""
        homes = {"crate": self.home, **self.paths}
        line = re.sub(r"\[`(crate|bitvec_\w+)::([\w:]+)`\](?!\()", lambda it: f"[`{it[2]}`]({homes.get(it[1], it[1])}::{it[2]})", line)
        return re.sub(r"\]\((crate|bitvec_\w+)::(?!proved)", lambda it: f"]({homes.get(it[1], it[1])}::", line)

    def public(self, item):
        """Who may name an item: `pub(crate)` means its crate, which is a module here."""
        words = text(solid(item.public))
        return words.replace("pub(crate)", f"pub(in {self.home})") + " " if words else ""

    def attribute(self, group):
        """An attribute as Rust has it; None where it has none."""
        words = solid(group.inner)
        name = words[0].text
        if name == "derive":
            derives = [it.text for it in words[1].inner if is_word(it)]
            for derive in derives:
                if derive not in DERIVES + ERASED_DERIVES:
                    self.refuse(group.line, f"derive({derive}) isn't known")
            kept = ", ".join(it for it in derives if it in DERIVES)
            return f"#[derive({kept})]" if kept else None
        if name in ERASED_ATTRIBUTES:
            return None
        if name not in ATTRIBUTES:
            self.refuse(group.line, f"the attribute {name} isn't known")
        return f"#{group}"

    def write_use(self, item, _outer):
        path = text(solid(item.head)).replace(" ", "")
        if path.startswith(("thiserror::", "std::marker::Model")):
            return None
        # A crate passes on more than the package takes.
        allowed = ["#[allow(unused_imports)]"] if item.public else []
        return self.before(item, allowed) + "use " + text(self.code(item.head)).lstrip()

    def write_mod(self, item, _outer):
        if item.items is None:
            return self.before(item) + "mod" + text(item.head) + ";"
        return self.before(item) + "mod" + text(item.head) + self.braced(item)

    def write_const(self, item, _outer):
        return self.before(item) + f"{item.kind}" + text(self.code(item.head))

    write_static = write_const

    def write_type(self, item, _outer):
        return self.before(item) + "type" + self.header(item.head)

    def write_macro_rules(self, item, _outer):
        self.macros.add(item.name)
        body = text(self.macro_code(item.body.inner))
        public = f"\n\npub(crate) use {item.name};" if item.has_attribute("macro_export") else f"\n#[allow(unused_imports)]\npub(crate) use {item.name};"
        return self.before(item) + f"macro_rules! {item.name} {{{body}}}{public}"

    def macro_code(self, nodes):
        """The arms of a macro: paths of crates are written anew, all else stays."""
        out = []
        for at, node in enumerate(nodes):
            if isinstance(node, Group):
                out.append(Group(node.open, self.macro_code(node.inner), node.line, node.end))
            elif is_word(node, "crate") and at and is_mark(nodes[at - 1], "$"):
                out.append(word("crate" + self.home.removeprefix("crate"), node.line))
            elif is_word(node) and node.text in self.paths:
                out.append(word("$" + self.paths[node.text], node.line))
            else:
                out.append(node)
        return out

    def write_struct(self, item, _outer):
        head = text(self.code(self.bounds(self.defaulted(item)))).rstrip()
        if item.body is None:
            return self.before(item) + "struct" + head + ";"
        return self.before(item) + "struct" + head + " " + str(Group("{", self.fields(item.body), 0, 0))

    def defaulted(self, item):
        """The head of a struct, with the defaults of its parameters."""
        out = list(item.head)
        for (name, parameter), default in DEFAULTS.items():
            if name == item.name:
                at = next(k for k, node in enumerate(out) if is_mark(node, "<"))
                begin = next(k for k in range(at, len(out)) if is_word(out[k], parameter))
                end = next(k for k in range(begin, len(out)) if is_mark(out[k], ",", ">"))
                out.insert(end, word(f" = {default}"))
        return out

    def fields(self, body):
        """The fields of a struct without the ghost ones, with what stands before those."""
        kept = []
        for piece in self.pieces(body.inner):
            words = [node for node in solid(piece) if not (isinstance(node, Token) and node.kind == "doc")]
            if is_word(words[0], "pub"):
                words = words[1:]
            if not is_word(words[0], "ghost"):
                kept += self.code(self.bounds([self.within(node) for node in piece])) + [Token("mark", ",", 0)]
        end = [node for node in body.inner[-1:] if is_trivia(node)]
        return kept + end

    def within(self, node):
        """`(crate)` behind a field's `pub`, which means its crate."""
        return Group("(", [word(f"in {self.home}")], node.line, node.end) if is_group(node, "(") and str(node) == "(crate)" else node

    def write_enum(self, item, _outer):
        body, texts = [], []
        for piece in self.pieces(item.body.inner):
            kept = self.variant(piece, texts)
            body += self.code(kept) + [Token("mark", ",", 0)]
        end = [node for node in item.body.inner[-1:] if is_trivia(node)]
        written = self.before(item) + "enum" + self.header(item.head).rstrip() + " " + str(Group("{", body + end, 0, 0))
        if item.has_attribute("derive") and any("Error" in text(group.inner) for group in item.attributes):
            written += self.error(item, texts)
        return written

    def variant(self, piece, texts):
        """A variant without the text that it prints, which is put into `texts`."""
        kept, at = [], 0
        while at < len(piece):
            group = piece[at + 1] if at + 1 < len(piece) else None
            if is_mark(piece[at], "#") and is_group(group, "["):
                words = solid(group.inner)
                if is_word(words[0], "error"):
                    texts.append((words[1].inner[0].text, solid(piece[at + 2:])))
                    at += 2
                    while at < len(piece) and is_trivia(piece[at]):
                        at += 1
                    continue
                if not self.attribute(group):
                    self.refuse(group.line, "an attribute of a variant that isn't known")
            kept.append(piece[at])
            at += 1
        return kept

    def error(self, item, texts):
        """What `thiserror` derives: the texts of an error's variants."""
        arms = ""
        for string, words in texts:
            if len(words) > 1 and is_group(words[1]):
                self.refuse(item.line, "the text of a variant with fields isn't known")
            arms += f"            {item.name}::{words[0]} => {string},\n"
        return (f"\n\nimpl core::fmt::Display for {item.name} {{\n    fn fmt(&self, f: &mut core::fmt::Formatter<'_>) -> core::fmt::Result {{\n"
                f"        f.write_str(match self {{\n{arms}        }})\n    }}\n}}\n\n"
                f"#[cfg(feature = \"std\")]\nimpl std::error::Error for {item.name} {{}}")

    def write_trait(self, item, _outer):
        head = self.header(item.head).rstrip()
        name, colon, above = self.head_of_trait(head)
        if "Sized" not in above.split(" + "):
            above = "Sized" + (" + " + above if above else "")
        self.own = []
        if self.tester.known.is_open(item):
            item.show()
        written = self.before(item) + f"trait{name}: {above} " + self.braced(item)
        if self.tester.known.is_open(item):
            self.refuse_open(item, written)
        return written + self.written_untested(item, name)

    def refuse_open(self, item, written):
        """Stops where a hidden method of a trait that users reach, as it is written, asks for nothing that only the library has."""
        for made in parsed(tree(written, self.file), self.file)[0].items:
            if made.kind == "fn" and made.hidden and not re.search(r"\b(Sealed|Met)\b", text(made.parameters.inner)):
                self.refuse(item.line, f"users reach the trait {item.name}, whose hidden method {made.name} asks for nothing that only the library has")

    def written_untested(self, item, name):
        """The private trait of what only the library calls of a trait; it is nothing where there is no such."""
        if not self.own:
            return ""
        private = f"{item.name}Untested"
        self.traits_untested.append(private)
        self.calls_untested = True
        parameters = name.strip().removeprefix(item.name).strip()
        trait = re.sub(r":[^,>]*", "", name).strip()
        generics = f"<{parameters[1:-1]}, Itself: {trait}>" if parameters else f"<Itself: {trait}>"
        return (f"\n\n/// What only the library calls of [`{item.name}`]: it tests nothing.\npub(crate) trait {private}{parameters}: {trait} {{"
                + "".join(self.own) + f"\n}}\n\nimpl{generics} {private}{re.sub(r':[^,>]*', '', parameters)} for Itself {{}}")

    @staticmethod
    def head_of_trait(head):
        """A trait's name with its parameters, and the traits above it."""
        depth = 0
        for at, mark in enumerate(head):
            depth += {"<": 1, ">": -1}.get(mark, 0)
            if mark == ":" and depth == 0 and head[at - 1:at] != ":" and head[at + 1:at + 2] != ":":
                return head[:at], ":", head[at + 1:].strip()
        return head, "", ""

    def trait_of(self, item):
        """The trait that an impl is of, and its type; None of an inherent one."""
        words, depth = item.head, 0
        for at, node in enumerate(words):
            if is_mark(node, "<"):
                depth += 1
            elif is_mark(node, ">") and not is_mark(words[at - 1], "-", "="):
                depth -= 1
            if depth == 0 and is_word(node, "for"):
                begin = 0
                if is_mark(solid(words)[0], "<"):
                    begin = self.end_of_generics(words)
                return words[begin:at], words[at + 1:]
        return None, words

    @staticmethod
    def end_of_generics(words):
        depth = 0
        for at, node in enumerate(words):
            if is_mark(node, "<"):
                depth += 1
            elif is_mark(node, ">") and not is_mark(words[at - 1], "-", "="):
                depth -= 1
                if depth == 0:
                    return at + 1
        return 0

    def trait_name(self, item):
        trait, _ = self.trait_of(item)
        if trait is None:
            return None
        end = next((k for k, node in enumerate(trait) if is_mark(node, "<")), len(trait))
        return [node.text for node in trait[:end] if is_word(node)][-1]

    def write_impl(self, item, _outer):
        name = self.trait_name(item)
        if name in PROOF_IMPLS:
            return None
        if any(node.text != "unsafe" for node in item.before) or item.before:
            self.refuse(item.line, "an `unsafe impl`")
        item.name, self.cloned = name, ""
        head = self.header(item.head)
        if name in ANSWERS:
            head = head.replace(f"{name}<", f"{ANSWERS[name][0]}<", 1)
        return self.before(item) + "impl" + head.rstrip() + " " + self.braced(item) + self.cloned

    # functions

    def write_fn(self, item, outer):
        self.answered(item, outer)
        if getattr(outer, "kind", None) == "impl" and item.name in OF_64_BITS.get(self.added_to(outer), ()):
            item.attributes.append(Group("[", tree('cfg(target_pointer_width = "64")', ""), 0, 0))
        if item.body and (names := narrowing.accessors(item, self.pieces(item.parameters.inner))):
            item.body = Group("{", narrowing.narrowed(item.body.inner, names), item.body.line, item.body.end)
        if item.body and (names := closures.edits_of(item)):
            item.body = Group("{", closures.seen(item.body.inner, names, self.file), item.body.line, item.body.end)
        return self.tester.function(self, item, outer)

    def signature(self, item, name, asks=False):
        """A function's words from `fn` up to its body. `asks` says whether it takes the value that only the library can make."""
        writers = self.writers(item)
        kept = [piece for piece in self.pieces(item.generics[1:-1]) if text(solid(piece)).split(":")[0] not in writers]
        generics = item.generics if not writers else [word("<")] * bool(kept)
        if writers and kept:
            generics = [word("<")]
            for piece in kept:
                generics += piece + [word(",")]
            generics += [word(">")]
        elif writers:
            generics = []
        inner = self.code(self.bounds(item.parameters.inner)) + [word(f"{self.behind(item.parameters.inner)}_: {MET}")] * asks
        parameters, after = str(Group("(", inner, 0, 0)), self.header(item.after)
        for writer in writers:
            parameters = parameters.replace(f"Formatter<{writer}>", "Formatter<'_>")
        words = "".join(f"{node} " for node in item.before if not is_word(node, "final"))
        return f"{words}fn {name}{self.header(generics)}{parameters}{after}".rstrip()

    def writers(self, item):
        """The type parameters that stand for a formatter's writer, which Rust's has not."""
        names = []
        for piece in self.pieces(item.generics[1:-1]):
            name, _, bound = text(solid(piece)).partition(":")
            if bound in ("fmt::Write", "Write") and f"Formatter<{name}>" in text(item.parameters.inner):
                names.append(name)
        return names

    def answered(self, item, outer):
        """A method that answers a result in Rattle and none in Rust."""
        trait = getattr(outer, "name", None) if getattr(outer, "kind", None) == "impl" else None
        if trait in ANSWERS and item.name == ANSWERS[trait][1]:
            item.name = ANSWERS[trait][2]
        if trait != "Clone" or item.name != "clone":
            return
        if text(solid(item.after)).replace(" ", "") != "->Result<Self,AllocError>":
            self.refuse(item.line, "a `clone` that answers no Result<Self, AllocError>")
        item.after = [word(" -> Self")]
        words = solid(item.body.inner)
        if len(words) == 2 and is_word(words[0], "Ok") and is_group(words[1], "("):
            item.body = Group("{", [word(" ")] + words[1].inner + [word(" ")], item.body.line, item.body.end)
            return
        trait, kind = self.trait_of(outer)
        generics = outer.head[:self.end_of_generics(outer.head)] if is_mark(outer.head[0], "<") else []
        self.cloned = (f"\n\nimpl{self.header(generics)} {self.header(kind).strip()} {{\n"
                       + "".join(f"    {token.text}\n" for token in item.docs)
                       + f"    pub fn try_clone(&self) -> Result<Self, AllocError> {{{text(self.code(item.body.inner))}}}\n}}")
        item.body = Group("{", [word(" crate::memory::granted(self.try_clone()) ")], 0, 0)

    def body(self, item):
        written = text(self.code(item.body.inner))
        for writer in self.writers(item):
            written = written.replace(f", {writer}>(", ">(")
        return written
