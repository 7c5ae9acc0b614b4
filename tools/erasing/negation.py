"""Writes the test of a condition as what fails it, in the form that clippy likes: `a < b` fails where `a >= b`."""
import re

from tokens import Group, is_group, is_mark, is_word, solid, text, tree

# What fails where each comparison holds.
FAILS = {"<=": ">", "<": ">=", "==": "!=", "!=": "==", ">": "<=", ">=": "<"}
# What fails where a method answers true, and other forms by which clippy writes them.
METHODS = ((r"^!(.*\.is_empty\(\))$", r"\1"), (r"^(.*)\.is_some\(\)$", r"\1.is_none()"), (r"^!(\w[\w.]*)$", r"\1"))
ZERO = ((r"^0 >= (.*)\.len\(\)$", r"\1.is_empty()"), (r"^0 >= (.*)$", r"\1 == 0"))


def failing(condition):
    """The words of Rust that are true where those of a condition are not."""
    return negated(bare(tree(condition, "the table")))


def negated(nodes):
    for joint, other in (("||", "&&"), ("&&", "||")):
        parts = split(nodes, joint)
        if len(parts) > 1:
            made = [negated(part) for part in parts]
            return f" {other} ".join(f"({it})" if other == "&&" and "||" in it else it for it in made)
    return negated_one(text(nodes).strip())


def negated_one(words):
    for operator, other in FAILS.items():
        found = re.match(rf"^(.*?) {operator} (.*)$", words)
        if found and balanced(found[1]):
            made = f"{found[1]} {other} {found[2]}"
            for form, written in ZERO:
                made = re.sub(form, written, made)
            return re.sub(r"^\((.*) as usize\) == 0$", r"\1 == 0", made)
    for form, written in METHODS:
        if re.match(form, words):
            return re.sub(form, written, words)
    return f"!{words}"


def balanced(words):
    return all(words.count(begin) == words.count(end) for begin, end in ("()", "[]", "{}"))


def split(nodes, joint):
    """Nodes, cut at an operator of two marks."""
    parts, at = [[]], 0
    while at < len(nodes):
        if is_mark(nodes[at], joint[0]) and at + 1 < len(nodes) and is_mark(nodes[at + 1], joint[1]):
            parts.append([])
            at += 2
        else:
            parts[-1].append(nodes[at])
            at += 1
    return parts


def bare(nodes):
    """Code without parentheses around what is a whole argument of a call."""
    made = []
    for at, node in enumerate(nodes):
        if is_group(node, "("):
            is_call = at and (is_word(nodes[at - 1]) or is_mark(nodes[at - 1], ">")) and not is_word(nodes[at - 1], "as")
            inner = bare(node.inner)
            node = Group("(", arguments(inner) if is_call else inner, node.line, node.end)
        made.append(node)
    return made


def arguments(nodes):
    """The arguments of a call, each without parentheses of its own."""
    made = []
    for at, node in enumerate(nodes):
        before, behind = solid(nodes[:at])[-1:], solid(nodes[at + 1:])[:1]
        is_whole = all(is_mark(it, ",") for it in before + behind)
        is_one = is_group(node, "(") and node.inner and not any(is_mark(it, ",") for it in node.inner)
        made += node.inner if is_whole and is_one else [node]
    return made
