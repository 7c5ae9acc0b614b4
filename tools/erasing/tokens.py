"""The tokens of a source, and their tree: brackets and what stands between them."""
import dataclasses
import re

OPEN = {"(": ")", "[": "]", "{": "}"}
CLOSE = set(OPEN.values())
TRIVIA = ("space", "comment")


class Unknown(Exception):
    """A form that the eraser doesn't know, with the file and the line."""

    def __init__(self, file, line, text):
        super().__init__(f"{file}:{line}: {text}")


@dataclasses.dataclass
class Token:
    """A token: `kind` is space, comment, doc, string, char, lifetime, number, word or mark."""

    kind: str
    text: str
    line: int

    def __str__(self):
        return self.text


@dataclasses.dataclass
class Group:
    """What stands between two brackets."""

    open: str
    inner: list
    line: int
    end: int

    def __str__(self):
        return self.open + text(self.inner) + OPEN[self.open]


def text(nodes):
    """The text of nodes."""
    return "".join(str(node) for node in nodes)


def is_word(node, *words):
    return isinstance(node, Token) and node.kind == "word" and (not words or node.text in words)


def is_mark(node, *marks):
    return isinstance(node, Token) and node.kind == "mark" and node.text in marks


def is_group(node, open=None):
    return isinstance(node, Group) and (open is None or node.open == open)


def is_trivia(node):
    return isinstance(node, Token) and node.kind in TRIVIA


def solid(nodes):
    """The nodes that are neither space nor comments."""
    return [node for node in nodes if not is_trivia(node)]


def word(text, line=0):
    return Token("word", text, line)


TOKEN = re.compile(r"""
    (?P<space>\s+)
    | (?P<doc>//!.* | ///(?!/).*)
    | (?P<comment>//.*)
    | (?P<block>/\*)
    | (?P<raw>[bc]?r(?P<hashes>\#*)"[\s\S]*?"(?P=hashes))
    | (?P<string>[bc]?"(?:\\[\s\S]|[^"\\])*")
    | (?P<char>b?'(?:\\(?:x[0-9a-fA-F]{2}|u\{[^}]*\}|.)|[^\\'\n])')
    | (?P<lifetime>'[^\W\d]\w*)
    | (?P<number>\d\w*(?:\.\d\w*)?)
    | (?P<word>[^\W\d]\w*)
    | (?P<mark>.)""", re.X)


def tokens(source, file):
    """The tokens of a source."""
    at, line = 0, 1
    while at < len(source):
        found = TOKEN.match(source, at)
        kind, end = found.lastgroup, found.end()
        if kind == "block":
            kind, end = "comment", end_of_comment(source, at)
        if end is None or kind == "mark" and found[0] in "\"'":
            raise Unknown(file, line, "a comment, a string or a character with no end")
        yield Token("string" if kind in ("raw", "hashes") else kind, source[at:end], line)
        line += source.count("\n", at, end)
        at = end


def end_of_comment(source, at):
    """Where a block comment ends, which may hold others; None where it doesn't."""
    depth = 0
    for mark in re.compile(r"/\*|\*/").finditer(source, at):
        depth += 1 if mark[0] == "/*" else -1
        if depth == 0:
            return mark.end()
    return None


def tree(source, file):
    """The nodes of a source: tokens, and groups of what stands between brackets."""
    stack, nodes = [], []
    for token in tokens(source, file):
        if token.kind == "mark" and token.text in OPEN:
            stack.append((token, nodes))
            nodes = []
        elif token.kind == "mark" and token.text in CLOSE:
            if not stack or OPEN[stack[-1][0].text] != token.text:
                raise Unknown(file, token.line, f"a `{token.text}` that closes nothing")
            begin, outer = stack.pop()
            outer.append(Group(begin.text, nodes, begin.line, token.line))
            nodes = outer
        else:
            nodes.append(token)
    if stack:
        raise Unknown(file, stack[-1][0].line, f"a `{stack[-1][0].text}` with no end")
    return nodes
