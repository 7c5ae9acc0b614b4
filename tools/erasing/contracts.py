"""Contracts in the documentation: the clauses of each public call, and the pages of the words that they name."""
import pathlib
import re

from tokens import Group, is_group, is_mark, is_word, solid, text

HEAD = '''//! The words of contracts: a page for each file of definitions.
//!
//! A contract says what a call requires and ensures of a model: numbers (ℕ), lists of truth values, windows. `x.old` is what stands
//! behind a borrow `x` when the call begins, and `x.new` when it has ended; `x.now` where it only reads; `x.entry` is a value as it
//! was passed. `≡` is equality, `×` and `⊎` are "and" and "or", `λ x. e` is a function. Words of Rattle's own library have no page here.
'''
KINDS = ("unfoldable", "abbrev", "pub", "record", "data")


def words_of(items):
    """The words that `ghost use` brings in: where each is defined."""
    found = {}
    for item in items:
        if item.kind != "ghost" or item.name != "use":
            continue
        path = text(solid(item.head)).replace(" ", "").rstrip(";")
        home = re.match(r"Rattle\.(bitvec\w*)\.specs\.([\w.]+?)\.(?:\{(.*)\}|(\w+))$", path)
        if home and not home[2].startswith("declared"):
            for name in (home[3] or home[4]).split(","):
                found[name.split("as")[-1] if " as " in name else name] = (home[1], home[2])
    return found


class Contracts:
    """Writes the contracts of calls, and keeps which definitions they name."""

    def __init__(self, top):
        self.top, self.pages = top, {}

    def lines(self, item, words):
        """The sections of a call's documentation."""
        made = []
        for kind, title in (("requires", "Requires"), ("ensures", "Ensures")):
            clauses = [clause for clause in item.clauses if clause.kind == kind]
            if clauses:
                made += ["///", f"/// # {title}", "///"]
                made += [f"/// - {clause.name + ': ' if clause.name else ''}{self.clause(clause, words)}" for clause in clauses]
        return made

    def clause(self, clause, words):
        """A clause as Markdown: code, whose words are linked to their definitions."""
        parts = re.split(r"([\w']+(?:-[\w']+)*)", clause.words)
        made, code = [], ""
        for at, part in enumerate(parts):
            before = parts[at - 1] if at else ""
            if part in words and not before.endswith("."):
                page = self.page(*words[part])
                if page:
                    made += [f"`{code}`"] if code else []
                    made.append(f"[`{part}`](crate::definitions::{page}#{anchor(part)})")
                    code = ""
                    continue
            code += part
        return "".join(made + ([f"`{code}`"] if code else []))

    def page(self, crate, file):
        """The module of a file of definitions; None where there is no such file."""
        path = self.top / "crates" / crate / "specs" / (file.replace(".", "/") + ".antt")
        if not path.is_file():
            return None
        name = re.sub(r"(?<=[a-z])(?=[A-Z])", "_", f"{crate.removeprefix('bitvec_')}_{file.replace('.', '_')}").lower()
        self.pages[name] = path
        return name

    def written(self):
        """The text of the module of definitions."""
        return HEAD + "".join(self.module(name, path) for name, path in sorted(self.pages.items()))

    def module(self, name, path):
        begin, blocks = self.blocks(path.read_text())
        lines = [f"/// {begin}", "///", f"/// From `crates/{path.relative_to(self.top / 'crates')}`."]
        for names, comment, code in blocks:
            lines += ["///", f"/// ## {', '.join(names)}", "///"]
            lines += [f"/// {comment}", "///"] if comment else []
            lines += ["/// ```text"] + [f"/// {line}".rstrip() for line in code] + ["/// ```"]
        return "\n" + "\n".join(lines) + f"\npub mod {name} {{}}\n"

    @staticmethod
    def blocks(source):
        """What a file says of itself, and its definitions: the names, the comment and the lines of each."""
        head, blocks = [], []
        for block in re.split(r"\n(?:[ \t]*\n)+", source.strip()):
            lines = block.split("\n")
            comment = [line.strip().removeprefix("--").strip(" -") for line in lines if line.strip().startswith("--")]
            code = [line for line in lines if not line.strip().startswith("--") and not re.match(r"\s*use ", line)]
            names = [it for line in code for it in re.findall(r"^\s*(?:unfoldable |abbrev )*pub (?:record |data )?([\w'-]+)", line)]
            if not blocks and not head and comment:
                head = comment
                comment = []
            if names:
                blocks.append((names[:1], "\n/// ".join(comment), code))
            elif blocks and code:
                blocks[-1][2].extend(["", *code])
        return "\n/// ".join(head), blocks


def anchor(name):
    """The anchor that rustdoc gives a heading."""
    return re.sub(r"[^\w-]", "", name.lower())
