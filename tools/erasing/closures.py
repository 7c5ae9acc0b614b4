"""Calls of a user's closures over a view that the library has narrowed: they go by `conditions::edited`, which sees that the closure
left the view in its place, and puts the view back where the closure panics."""
import re

import table
from tokens import Group, Unknown, is_group, is_mark, is_word, solid, text, word

EDITED = "crate::conditions::edited::<T, O, _, _, _>"


def edits_of(item):
    """The closures of a function that edit a view, by their names."""
    return [re.search(r"\.(?:pre|step) (\w+)(?!\.)\b", clause.words)[1] for clause in item.requires() if clause.words.split()[0] in table.STAYS]


def seen(nodes, names, file):
    """Code whose calls of these closures go by `edited`. It stops at a call of another form."""
    made, at = [], 0
    while at < len(nodes):
        node = nodes[at]
        if is_word(node, *names) and at + 1 < len(nodes) and is_group(nodes[at + 1], "("):
            made += [word(call(nodes, at, file), node.line)]
            at += 2
            continue
        made.append(Group(node.open, seen(node.inner, names, file), node.line, node.end) if is_group(node) else node)
        at += 1
    return made


def call(nodes, at, file):
    """The call of a closure, `edit(.., self)` or `edit(.., &mut view)`, by `edited`."""
    *first, view = text(solid(nodes[at + 1].inner)).replace("&mut", "&mut ").split(",")
    handed = "".join(f"{argument}, " for argument in first)
    if view == "self" and is_narrowed(nodes, at):
        return f"{EDITED}(self, Some(window), |view| {nodes[at]}({handed}view))"
    if re.fullmatch(r"&mut \w+", view):
        return f"{EDITED}({view}, None, |view| {nodes[at]}({handed}view))"
    raise Unknown(file, nodes[at].line, f"a call of the closure {nodes[at]} on a view that no `let window = self.narrow(..)` narrowed")


def is_narrowed(nodes, at):
    """Whether the call stands between `let window = self.narrow(..);` and `self.stand_at(window, Sealed);`."""
    before, behind = (text(solid(part)).replace(" ", "") for part in (nodes[:at], nodes[at + 2:]))
    return bool(re.search(r"letwindow=self\.narrow\(.*\);(let\w+=)?$", before, re.S)) and behind.startswith(";self.stand_at(window,Sealed);")
