"""Arguments of public calls, as `bitvec` takes them: a range of any kind where the text takes `start..end`, and whatever a view is
taken of, by reference or by value, where it takes a view."""
import dataclasses
import re

from tokens import Group, is_word, solid, text, tree


# The types whose own calls are widened.
TYPES = ("BitSlice", "BitSliceMut")
# Paths of the package's own, which a module of the text has no name for.
NAMES = (["bits", "Bits"], ["bits", "BitsMut"])


@dataclasses.dataclass
class Wide:
    """A function's generics and parameters, the lines that make its own arguments of them, and the arguments' names."""

    generics: list
    parameters: list
    lines: list
    names: list


def widened(generics, parameters, length, order="O"):
    """The pieces of generics and parameters. `length` is the Rust of the view's length."""
    made, lines, names, gone = [], [], [], set()
    for piece in parameters:
        words = text(solid(piece))
        name, _, kind = (part.strip() for part in text(piece).strip().partition(":"))
        if is_self(piece):
            made.append(text(piece).strip())
            continue
        name = name.removeprefix("mut ")
        names.append(name)
        if kind == "Range<usize>":
            kind = "impl core::ops::RangeBounds<usize>"
            lines.append(f"let {name} = crate::ranges::within({name}, {length});")
        elif found := re.fullmatch(r"(&mut )?BitSlice(?:Mut)?<'\w+, (\w+), (\w+)>", kind):
            kind, line = viewed(name, found)
            gone |= set(re.findall(r"'\w+|\w+", text(piece).partition("<")[2])) - {"T", "O", "'a", "'_"}
            lines.append(line)
        made.append(f"{name}: {kind}")
    kept = [text(piece).strip() for piece in generics if not gone & {text(solid(piece)).split(":")[0]}]
    return Wide(kept, made, lines, names)


def viewed(name, found):
    """What stands for a view's type, and the line that makes it one."""
    own = f"<Store = {found[2]}, Order = {found[3]}>" if (found[2], found[3]) == ("T", "O") else ""
    if found[1]:
        return f"&mut impl crate::bits::BitsMut{own}", f"let {name} = &mut crate::bits::BitsMut::bits_mut({name});"
    return f"impl crate::bits::Bits{own}", f"let {name} = crate::bits::Bits::bits(&{name});"


def is_self(piece):
    words = [node.text for node in solid(piece) if is_word(node)]
    return words[:1] == ["self"] or words[:2] == ["mut", "self"]


def in_place(item, pieces):
    """Widens a method by its item, and gives the lines that begin its body."""
    wide = widened(pieces(item.generics[1:-1]), pieces(item.parameters.inner), "self.len()")
    if wide.lines:
        item.generics = nodes("<" + ", ".join(wide.generics) + ">") if wide.generics else []
        item.parameters = Group("(", nodes(", ".join(wide.parameters)), 0, 0)
    return wide


def nodes(words):
    """The nodes of a text of Rust."""
    return tree(words, "widening")
