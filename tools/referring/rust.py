"""The items of a .rt file as the reference shows them: types, traits, functions and what stands in them, each with its comment and its head. The
parser is that of tools/erasing; heads have the lines of `rt fmt`."""
import dataclasses
import re
import sys

from library import TOP

sys.path.insert(0, str(TOP / "tools/erasing"))
from items import parsed
from tokens import text, tree


@dataclasses.dataclass(eq=False)
class Item:
    """An item. Its head is the text up to the body, clauses included; ghosts are a trait's members that only contracts name, and around is
    the head of the impl or trait that a method stands in."""

    kind: str
    name: str
    crate: str
    file: str
    is_public: bool
    docs: list
    attributes: list
    head: list
    body: str
    imports: dict
    items: list
    ghosts: list
    around: list = dataclasses.field(default_factory=list)

    @property
    def is_hidden(self):
        return any("doc(hidden)" in it for it in self.attributes)

    @property
    def of(self):
        """The type, and the trait, that an impl is of: the last names of their paths."""
        head, before = " ".join(self.head).replace("->", ""), ""
        while head != before:
            head, before = re.sub(r"<[^<>]*>", "", head), head
        trait, _, of = re.sub(r"\bwhere\b.*", "", head).partition("impl")[2].rpartition(" for ")
        return last_name(of), last_name(trait)


def last_name(path):
    return re.search(r"\w*(?=\W*$)", path)[0]


class Reader:
    """The items of one file, and the names that its `use` lines bring: whether they are passed on, the path, the name, and what it is called."""

    def __init__(self, crate, file, source):
        self.crate, self.file, self.lines, self.uses = crate, file, source.splitlines(), []
        self.items, _, _ = self.block(parsed(tree(source, file), file), {})

    def block(self, found, imports):
        """The items of a block, its ghost members, and what it imports."""
        imports, items, ghosts = dict(imports), [], []
        for it in found:
            if it.kind == "ghost" and it.name == "use":
                path, _, names = text(it.head).strip().rstrip("; }").partition(".{")
                imports.update({alias: (path, name) for _, name, alias in paths_of(names)})
            elif it.kind == "use":
                for path, name, alias in paths_of(" ".join(text(it.head).rstrip("; \n").split())):
                    imports.setdefault(alias, (path, name))
                    self.uses.append((it.is_public, path, name, alias))
            elif it.kind == "ghost":
                notes = re.findall(r"^ *// (.*)$", it.lead.rpartition("\n\n")[2], re.M)
                ghosts.append((it.name, notes, [line.strip() for line in self.lines[it.line - 1:it.body.end]]))
            elif it.kind not in ("call", "inner doc", "inner attribute"):
                items.append(self.item(it, imports))
        return items, ghosts, imports

    def item(self, it, imports):
        inner, ghosts, imports = self.block(it.items, imports) if it.kind in ("impl", "trait") and it.items else ([], [], imports)
        docs = [str(line)[4:] for line in it.docs]
        attributes = ["#" + " ".join(str(group).split()) for group in it.attributes]
        name = "" if it.kind == "impl" else re.match(r"\w*", it.name)[0]
        body = "\n".join(self.lines[it.body.line - 1:it.body.end]) if it.kind == "fn" and it.body else ""
        return Item(it.kind, name, self.crate, self.file, it.is_public, docs, attributes, self.head(it), body, imports, inner, ghosts)

    def head(self, it):
        """The lines of an item up to its body; of a struct or an enum with its fields, and of a macro with its arms."""
        begin, body = it.line - 1, it.body
        indent = len(self.lines[begin]) - len(self.lines[begin].lstrip())
        end = body.end if body and it.kind in ("struct", "enum", "macro_rules") else body.line if body else begin + 1
        while not body and not self.lines[end - 1].endswith(";"):
            end += 1
        lines = [line[indent:] for line in self.lines[begin:end]]
        if body and lines[-1] == "{":
            return lines[:-1]
        if it.kind == "fn" and body:
            lines[-1] = re.sub(r"\s*\{\}?$", "", lines[-1])
        return lines


def paths_of(text):
    """The names that a `use` brings: the path, the name, and what it is called here. Groups are written out, the inner ones first."""
    group = re.search(r"([\w:]*)\{([^{}]*)\}", text)
    if group:
        names = ", ".join(f"{group[1]}{it.strip()}" for it in group[2].split(",") if it.strip())
        yield from paths_of(text[:group.start()] + names + text[group.end():])
        return
    for it in filter(None, map(str.strip, text.split(","))):
        name, _, alias = it.partition(" as ")
        path, _, last = name.rpartition("::")
        yield path, last, alias or last


def read(crate, path, file):
    """The items of a file, and the names that its `use` lines bring."""
    reader = Reader(crate, file, path.read_text())
    return reader.items, reader.uses
