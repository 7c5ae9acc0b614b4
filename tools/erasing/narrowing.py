"""Loops over whole elements, so written that rustc needs no test of an index in each pass.

The kit's compiler knows by the proof that an index lies in the memory; rustc tests each. Two forms of loops

    for step in 0..count {
        .. cells.load(first + step) ..
        .. act.whole::<O>(left, first + step, other); ..
    }

stay within `count` elements of an accessor, if they use it in no other way. So the loop goes over an
accessor of just these, whose length rustc knows, where `cells` can give one, and is as it was else. A loop that acts by
`whole` is handed to the act as a closure that makes the elements, since only the act knows which accessors it takes."""
import dataclasses

from tokens import Group, Token, is_group, is_mark, is_word, solid, text

READS, WRITES = ("load",), ("store",)

# How an act goes over whole elements: of an accessor of just these.
WHOLES = """
    #[inline(always)]
    fn wholes<O: BitOrder>(&mut self, cells: &mut C, first: usize, count: usize, mut other: impl FnMut(usize) -> C::Elem) {
        match cells.%s(first, count, crate::conditions::Met) {
            Some(mut cells) => (0..count).for_each(|step| Act::<crate::proved::cells::%s<'_, C::Elem>>::whole::<O>(self, &mut cells, step, other(step))),
            None => (0..count).for_each(|step| self.whole::<O>(cells, first + step, other(step))),
        }
    }
"""
# What accessors and acts have for this, by the trait, and by the type that an impl is for.
ADDED = {
    ("CellsRead", None): """
    /// An accessor of `count` elements from the element `first` on, if this one can give it.
    #[doc(hidden)]
    #[inline(always)]
    fn narrowed(&mut self, _first: usize, _count: usize, _: crate::conditions::Met) -> Option<crate::proved::cells::Shared<'_, Self::Elem>> {
        None
    }
""",
    ("Cells", None): """
    /// An accessor of `count` elements from the element `first` on, if this one can give it.
    #[doc(hidden)]
    #[inline(always)]
    fn narrowed_mut(&mut self, _first: usize, _count: usize, _: crate::conditions::Met) -> Option<crate::proved::cells::Exclusive<'_, Self::Elem>> {
        None
    }
""",
    ("CellsRead", "Shared"): """
    #[inline(always)]
    fn narrowed(&mut self, first: usize, count: usize, _: crate::conditions::Met) -> Option<Shared<'_, T>> {
        Some(Shared::new(&self.cells[first..first + count]))
    }
""",
    ("CellsRead", "Exclusive"): """
    #[inline(always)]
    fn narrowed(&mut self, first: usize, count: usize, _: crate::conditions::Met) -> Option<crate::proved::cells::Shared<'_, T>> {
        Some(crate::proved::cells::Shared::new(&self.cells[first..first + count]))
    }
""",
    ("Cells", "Exclusive"): """
    #[inline(always)]
    fn narrowed_mut(&mut self, first: usize, count: usize, _: crate::conditions::Met) -> Option<Exclusive<'_, T>> {
        Some(Exclusive::new(&mut self.cells[first..first + count]))
    }
""",
    ("Act", None): """
    /// Acts on `count` whole elements from the element `first` on, each with what `other` makes for its number.
    #[doc(hidden)]
    fn wholes<O: BitOrder>(&mut self, cells: &mut C, first: usize, count: usize, other: impl FnMut(usize) -> C::Elem);
""",
    ("Act", "Put"): WHOLES % ("narrowed_mut", "Exclusive"),
    ("Act", "Apply"): WHOLES % ("narrowed_mut", "Exclusive"),
    ("Act", "Differ"): WHOLES % ("narrowed", "Shared"),
}


def accessors(item, pieces):
    """The parameters of a function that are accessors, with their types: those that are bound by `CellsRead` or `Cells`."""
    bounds = text(solid(item.generics)) + text(solid(item.after))
    found = {}
    for piece in pieces:
        name, _, kind = text(solid(piece)).partition(":")
        if kind.startswith("&mut") and any(f"{kind[4:]}:{bound}" in bounds for bound in ("CellsRead", "Cells")):
            found[name] = kind[4:]
    return found


def narrowed(nodes, names):
    """Code whose loops over whole elements of the accessors are narrowed."""
    made, at = [], 0
    while at < len(nodes):
        if loop := Loop.at(nodes, at):
            made += loop.written(names) or [*nodes[at:loop.end - 1], Group("{", narrowed(loop.body.inner, names), 0, 0)]
            at = loop.end
        else:
            node = nodes[at]
            made.append(Group(node.open, narrowed(node.inner, names), node.line, node.end) if is_group(node) else node)
            at += 1
    return made


def code(words):
    """Words as one node."""
    return Token("space", words, 0)


def words_in(nodes):
    for node in nodes:
        if is_group(node):
            yield from words_in(node.inner)
        elif is_word(node):
            yield node


@dataclasses.dataclass
class Acting:
    """A loop's call of an act by `whole`: the act, the call of `wholes`, the accessor, the first element, and what makes an element."""

    act: str
    call: list
    left: str
    first: str
    inner: list


class Loop:
    """A loop `for step in 0..count {}`."""

    def __init__(self, nodes, end, step, count):
        self.nodes, self.end, self.step, self.count, self.body = nodes, end, step, count, nodes[-1]

    @classmethod
    def at(cls, nodes, at):
        """The loop that begins here; None where none does."""
        end = next((k for k in range(at, len(nodes)) if is_group(nodes[k], "{")), None) if is_word(nodes[at], "for") else None
        words = solid(nodes[at:end]) if end else []
        if len(words) < 7 or not is_word(words[1]) or not is_word(words[2], "in") or str(words[3]) != "0" or not (is_mark(words[4], ".") and is_mark(words[5], ".")):
            return None
        return cls(nodes[at:end + 1], end + 1, words[1].text, text(words[6:]))

    def uses(self, nodes, *names):
        return any(it.text in names for it in words_in(nodes))

    def written(self, names):
        """The loop as it is written, or nothing where it has none of the forms."""
        inner, acting = self.body.inner, self.acting()
        if acting:
            inner = acting.inner
            if self.uses(inner, acting.act, acting.left):
                return None
        heads, binds = [], []
        for name in names:
            if self.uses(inner, name) and (made := self.by_elements(inner, name)):
                inner, head, bind = made
                heads.append(head)
                binds.append(bind)
        if acting:
            arguments = code(f"{acting.left}, {acting.first}, {self.count}, |{self.step}| ")
            loop = [*acting.call, Group("(", [arguments, Group("{", inner, 0, 0)], 0, 0), code(";")]
        elif heads:
            loop = [code(f"for {self.step} in 0..{self.count} "), Group("{", inner, 0, 0)]
        else:
            return None
        if not heads:
            return loop
        return [code(f"if 0 < {self.count} {{ match ({', '.join(heads)},) {{ ({', '.join(binds)},) => {{ "), *loop, code(" } _ => "),
                Group("{", [code(" "), *self.nodes, code(" ")], 0, 0), code(" } }")]

    def acting(self):
        """The statement `act.whole::<O>(left, first + step, other);` of the body, if it has one."""
        inner = self.body.inner
        at = next((k for k in range(2, len(inner)) if is_word(inner[k], "whole") and is_mark(inner[k - 1], ".") and is_word(inner[k - 2])), None)
        group = next((k for k in range(at, len(inner)) if is_group(inner[k])), None) if at else None
        parts = cut(inner[group].inner) if group and is_mark(inner[group + 1], ";") else []
        place = placed(Group("(", parts[1], 0, 0), self.step) if len(parts) == 3 else None
        if not place:
            return None
        call = [*inner[at - 2:at], Token("word", "wholes", 0), *inner[at + 1:group]]
        made = [*inner[:at - 2], code("let value = "), *solid(parts[2]), code(";"), *inner[group + 2:], code("    value\n")]
        return Acting(inner[at - 2].text, call, text(solid(parts[0])), place[0], made)

    def by_elements(self, inner, name):
        """Code that goes over an accessor of just the loop's elements: the code, that accessor, and what binds it; None where
        another use of the accessor stands in it."""
        calls = []
        made = replaced(inner, name, self.step, calls)
        if made is None or len({first for _, first in calls}) != 1:
            return None
        narrow = "narrowed_mut" if any(kind in WRITES for kind, _ in calls) else "narrowed"
        return made, f"{name}.{narrow}({calls[0][1]}, {self.count}, crate::conditions::Met)", f"Some(mut {name})"


def cut(nodes):
    """Nodes, cut at the commas."""
    pieces = [[]]
    for node in nodes:
        if is_mark(node, ","):
            pieces.append([])
        else:
            pieces[-1].append(node)
    return pieces


def replaced(nodes, name, step, calls):
    """Code whose calls of an accessor go by the step, not by the first element and the step; None where another use stands."""
    made, at = [], 0
    while at < len(nodes):
        node = nodes[at]
        if is_word(node, name):
            call = nodes[at:at + 4]
            if len(call) < 4 or not is_mark(call[1], ".") or not is_word(call[2], *READS, *WRITES) or not is_group(call[3], "("):
                return None
            place = placed(call[3], step)
            rest = replaced(call[3].inner[place[1]:], name, step, calls) if place else None
            if rest is None:
                return None
            calls.append((call[2].text, place[0]))
            made += [*call[:3], Group("(", [Token("word", step, 0), *rest], 0, 0)]
            at += 4
            continue
        if is_group(node):
            inner = replaced(node.inner, name, step, calls)
            if inner is None:
                return None
            node = Group(node.open, inner, node.line, node.end)
        made.append(node)
        at += 1
    return made


def placed(group, step):
    """The first element of an argument `first + step` or `first + step + 1`, and where it ends."""
    end = next((k for k, node in enumerate(group.inner) if is_mark(node, ",")), len(group.inner))
    first, *rest = text(solid(group.inner[:end])).split("+")
    if rest[:1] != [step] or not first.replace(".", "").replace("_", "").isalnum():
        return None
    if len(rest) > 2 or rest[1:] and not rest[1].isdigit():
        return None
    return " + ".join([first, *rest[1:]]), end
