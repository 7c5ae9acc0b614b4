"""The items of a source: functions with their clauses, types, traits, impls, modules and imports."""
import dataclasses

from tokens import Group, Token, Unknown, is_group, is_mark, is_trivia, is_word, solid, text

CLAUSES = ("requires", "ensures")
ITEM_WORDS = ("use", "mod", "const", "static", "type", "struct", "enum", "trait", "impl", "fn", "macro_rules")
BEFORE_FN = ("final", "unsafe", "const", "extern")


@dataclasses.dataclass
class Clause:
    """A clause of a contract: `requires name { words }`."""

    kind: str
    name: str
    group: Group
    line: int

    @property
    def words(self):
        """The clause's text, its space made single."""
        return " ".join(text(self.group.inner).split())


@dataclasses.dataclass
class Item:
    """An item, in the parts that are written."""

    kind: str
    name: str
    line: int
    docs: list
    attributes: list
    public: list
    head: list
    body: object = None
    lead: str = ""
    # of functions
    before: list = dataclasses.field(default_factory=list)
    generics: list = dataclasses.field(default_factory=list)
    parameters: Group = None
    after: list = dataclasses.field(default_factory=list)
    clauses: list = dataclasses.field(default_factory=list)
    # of traits, impls and modules
    items: list = None

    def requires(self):
        return [clause for clause in self.clauses if clause.kind == "requires"]

    def has_attribute(self, *words):
        return any(text(solid(group.inner)).replace(" ", "").startswith(words) for group in self.attributes)

    @property
    def hidden(self):
        return self.has_attribute("doc(hidden)")

    def show(self):
        """Takes `doc(hidden)` from it."""
        self.attributes = [group for group in self.attributes if text(solid(group.inner)).replace(" ", "") != "doc(hidden)"]

    @property
    def is_public(self):
        return text(solid(self.public)) == "pub"


class Parser:
    """Parses a list of nodes as items. `outer` is what they stand in: file, trait, impl, mod."""

    def __init__(self, nodes, file, outer="file"):
        self.nodes, self.file, self.outer, self.at = nodes, file, outer, 0

    def refuse(self, line, what):
        raise Unknown(self.file, line, what)

    def line(self):
        for node in self.nodes[self.at:]:
            return node.line
        return self.nodes[-1].line if self.nodes else 0

    def here(self):
        """The next node that isn't trivia."""
        for node in self.nodes[self.at:]:
            if not is_trivia(node):
                return node
        return None

    def skip(self):
        """Goes past trivia, and gives it."""
        begin = self.at
        while self.at < len(self.nodes) and is_trivia(self.nodes[self.at]):
            self.at += 1
        return self.nodes[begin:self.at]

    def next(self):
        self.skip()
        node = self.nodes[self.at]
        self.at += 1
        return node

    def parse(self):
        items = []
        while True:
            lead = self.skip()
            if self.at >= len(self.nodes):
                return items
            items.append(self.item(text(lead)))

    def item(self, lead):
        docs, attributes, lines = [], [], []
        while True:
            node = self.here()
            if isinstance(node, Token) and node.kind == "doc":
                self.next()
                if node.text.startswith("//!"):
                    return Item("inner doc", "", node.line, [node], [], [], [], lead=lead)
                docs.append(node)
            elif is_mark(node, "#"):
                line = self.next().line
                inner = is_mark(self.here(), "!")
                if inner:
                    self.next()
                group = self.next()
                if not is_group(group, "["):
                    self.refuse(line, "a `#` with no attribute")
                if inner:
                    return Item("inner attribute", "", line, [], [group], [], [], lead=lead)
                attributes.append(group)
            else:
                break
        if node is None:
            self.refuse(self.line(), "documents or attributes with no item")
        public = []
        if is_word(node, "pub"):
            public.append(self.next())
            if is_group(self.here(), "("):
                public.append(self.next())
        item = self.kinded(docs, attributes, public)
        item.lead = lead
        return item

    def kinded(self, docs, attributes, public):
        node = self.here()
        if is_word(node, "ghost"):
            return self.ghost(docs, attributes, public)
        begin = self.at
        words = []
        while is_word(self.here(), *BEFORE_FN):
            words.append(self.next())
            if words[-1].text == "extern" and isinstance(self.here(), Token) and self.here().kind == "string":
                words.append(self.next())
        if is_word(self.here(), "fn"):
            return self.function(docs, attributes, public, words)
        if is_word(self.here(), "impl", "trait") and words:
            pass
        else:
            self.at = begin
            words = []
        node = self.here()
        if is_word(node, *ITEM_WORDS):
            return self.other(docs, attributes, public, words)
        if isinstance(node, Token) and node.kind == "word":
            return self.call(docs, attributes, public)
        return self.refuse(self.line(), f"no item begins with `{node}`")

    def until_end(self, what):
        """The nodes up to the `;`, with it."""
        begin = self.at
        while self.at < len(self.nodes):
            node = self.nodes[self.at]
            self.at += 1
            if is_mark(node, ";"):
                return self.nodes[begin:self.at]
        return self.refuse(self.nodes[begin].line, f"{what} with no `;`")

    def ghost(self, docs, attributes, public):
        """A ghost import, or a ghost member: `ghost name: { .. };` or `ghost name = { .. };`."""
        line = self.next().line
        node = self.next()
        if is_word(node, "use"):
            return Item("ghost", "use", line, docs, attributes, public, self.until_end("a ghost import"))
        name, mark = node, self.next()
        if not is_word(name) or not is_mark(mark, ":", "="):
            self.refuse(line, "a ghost that is neither an import nor a member")
        group = self.next()
        if not is_group(group, "{") or not is_mark(self.next(), ";"):
            self.refuse(line, f"the ghost {name} isn't one group in braces and a `;`")
        return Item("ghost", name.text, line, docs, attributes, public, [mark], group)

    def call(self, docs, attributes, public):
        """A macro that is called among items."""
        name = self.next()
        if not is_mark(self.here(), "!"):
            self.refuse(name.line, f"`{name}` begins no item that is known")
        begin = self.at
        self.next()
        group = self.next()
        if not is_group(group):
            self.refuse(name.line, f"the macro {name} has no group")
        if is_mark(self.here(), ";"):
            self.next()
        return Item("call", name.text, name.line, docs, attributes, public, [name] + self.nodes[begin:self.at])

    def generic(self):
        """`<..>`, if it stands here."""
        if not is_mark(self.here(), "<"):
            return []
        self.skip()
        begin, depth = self.at, 0
        while self.at < len(self.nodes):
            node = self.nodes[self.at]
            before = self.nodes[self.at - 1] if self.at > begin else None
            self.at += 1
            if is_mark(node, "<"):
                depth += 1
            elif is_mark(node, ">") and not is_mark(before, "-", "="):
                depth -= 1
                if depth == 0:
                    return self.nodes[begin:self.at]
        return self.refuse(self.nodes[begin].line, "a `<` with no end")

    def function(self, docs, attributes, public, words):
        line = self.next().line
        name = self.next()
        item = Item("fn", name.text, line, docs, attributes, public, [], before=words)
        item.generics = self.generic()
        item.parameters = self.next()
        if not is_group(item.parameters, "("):
            self.refuse(line, f"the function {name} has no parameters")
        begin = self.at
        while not self.at_clause() and not is_group(self.here(), "{") and not is_mark(self.here(), ";"):
            if self.here() is None:
                self.refuse(line, f"the function {name} has no end")
            self.next()
        item.after = self.nodes[begin:self.at]
        while self.at_clause():
            item.clauses.append(self.clause())
        node = self.next()
        if is_group(node, "{"):
            item.body = node
        elif not is_mark(node, ";"):
            self.refuse(node.line, f"`{node}` stands after the clauses of {name}")
        return item

    def at_clause(self):
        return is_word(self.here(), *CLAUSES)

    def clause(self):
        kind = self.next()
        if is_mark(self.here(), "*"):
            self.next()
        name = self.next().text if is_word(self.here()) else ""
        group = self.next()
        if not is_group(group, "{"):
            self.refuse(kind.line, f"a clause `{kind}` with no braces")
        return Clause(kind.text, name, group, kind.line)

    def other(self, docs, attributes, public, words):
        kind = self.next()
        line, begin = kind.line, self.at
        item = Item(kind.text, "", line, docs, attributes, public, [], before=words)
        if kind.text in ("use", "const", "static", "type"):
            item.head = self.until_end(f"a `{kind}`")
            item.name = text(solid(item.head[:-1]))
            return item
        if kind.text == "macro_rules":
            self.next()
            item.name = self.next().text
            item.body = self.next()
            if not is_group(item.body, "{"):
                self.refuse(line, f"the macro {item.name} isn't in braces")
            return item
        while not is_group(self.here(), "{") and not is_mark(self.here(), ";"):
            if self.here() is None:
                self.refuse(line, f"a `{kind}` with no end")
            self.next()
        item.head = self.nodes[begin:self.at]
        names = [node.text for node in solid(item.head) if is_word(node)]
        item.name = names[0] if names else ""
        node = self.next()
        if is_group(node, "{"):
            item.body = node
            if kind.text in ("trait", "impl", "mod"):
                item.items = Parser(node.inner, self.file, kind.text).parse()
        return item


def parsed(nodes, file):
    """The items of a file."""
    return Parser(nodes, file).parse()
