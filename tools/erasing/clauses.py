"""Clauses as trees: names, numbers, applications and operators. A pattern is a tree with holes, `?name`."""
import dataclasses

from tokens import Group, Token, is_mark, is_word, solid, text, tree

LEVELS = [("→",), ("⊎",), ("×",), ("≡", "≢", "≤", "<", "=="), ("+", "-"), ("*", "/", "%"), ("^",)]


class Strange(Exception):
    """A clause that has a form with no tree here."""


@dataclasses.dataclass(frozen=True)
class Term:
    """A tree: its head, a word, an operator, `app` or `.`, and what stands below."""

    head: str
    below: tuple = ()

    def __str__(self):
        if not self.below:
            return self.head
        parts = [f"({it})" if it.below and it.head != "." else str(it) for it in self.below]
        if self.head == "app":
            return " ".join(parts)
        return f"{parts[0]}.{parts[1]}" if self.head == "." else f" {self.head} ".join(parts)


class ClauseParser:
    def __init__(self, nodes):
        self.nodes, self.at = [it for it in solid(nodes)], 0

    def here(self):
        return self.nodes[self.at] if self.at < len(self.nodes) else None

    def operator(self, level):
        """An operator of a level, if it stands here, and of how many marks."""
        here, behind = self.here(), self.nodes[self.at + 1] if self.at + 1 < len(self.nodes) else None
        if is_mark(here, "=") and is_mark(behind, "="):
            return ("==", 2) if "==" in LEVELS[level] else (None, 0)
        return (here.text, 1) if is_mark(here, *LEVELS[level]) else (None, 0)

    def parse(self, level=0):
        if level == len(LEVELS):
            return self.application()
        left = self.parse(level + 1)
        while True:
            operator, marks = self.operator(level)
            if not operator:
                return left
            self.at += marks
            left = Term(operator, (left, self.parse(level + 1)))

    def function(self):
        """`λ a b. term`."""
        self.at += 1
        names = []
        while is_word(self.here()):
            names.append(Term(self.here().text))
            self.at += 1
        if not names or not is_mark(self.here(), "."):
            raise Strange()
        self.at += 1
        return Term("λ", (*names, self.parse()))

    def application(self):
        if is_word(self.here(), "λ"):
            return self.function()
        terms = []
        while self.begins():
            terms.append(self.atom())
        if not terms:
            raise Strange()
        return terms[0] if len(terms) == 1 else Term("app", tuple(terms))

    def begins(self):
        node = self.here()
        return isinstance(node, Group) and node.open == "(" or isinstance(node, Token) and node.kind in ("word", "number") or is_mark(node, "?")

    def atom(self):
        node = self.here()
        self.at += 1
        if isinstance(node, Group):
            inner = ClauseParser(node.inner)
            term = inner.parse()
            if inner.here() is not None:
                raise Strange()
        elif is_mark(node, "?"):
            term = Term("?" + self.here().text)
            self.at += 1
        else:
            term = Term(node.text)
        while is_mark(self.here(), ".") and self.at + 1 < len(self.nodes) and getattr(self.nodes[self.at + 1], "kind", "") in ("word", "number"):
            term = Term(".", (term, Term(self.nodes[self.at + 1].text)))
            self.at += 2
        return plain(term)


def plain(term):
    """A term without `now`, `old` and `entry`: which moment is meant is plain where a call begins."""
    if term.head == "." and term.below[1].head in ("now", "old", "entry"):
        return term.below[0]
    return term


def clause(nodes):
    """The tree of a clause."""
    parser = ClauseParser(nodes)
    term = parser.parse()
    if parser.here() is not None:
        raise Strange()
    return term


def pattern(source):
    return clause(tree(source, "the table"))


def match(form, term, found):
    """Whether a term has a pattern's form; the holes' terms are put into `found`."""
    if form.head.startswith("?"):
        return found.setdefault(form.head[1:], term) == term
    return (form.head == term.head and len(form.below) == len(term.below)
            and all(match(a, b, found) for a, b in zip(form.below, term.below)))
