"""The definitions of an .antt file of specs/: words, laws and sets, each with its comment, its arguments and what it says."""
import dataclasses
import re

USE = re.compile(r"(pub )?use ([\w.]+?)(?:\.\{(.*)\})?(?: as (\w+))?$")
HEAD = re.compile(r"(?!infix|open |unfolding |field |mod |pub mod )((?:pub |abbrev |unfoldable |record |data |ruleset )*)([^\s(){}:]+)")
MODULE = re.compile(r"module (?:_ (.*) where$)?")


@dataclasses.dataclass(eq=False)
class Word:
    """A definition: its kind is word, law or set; arguments are those of the modules around it, body has its equations, laws those of a set."""

    kind: str
    name: str
    crate: str
    file: str
    is_public: bool
    comment: list
    arguments: list
    statement: list
    body: list
    imports: dict
    laws: list


class Reader:
    """Reads the lines of one file."""

    def __init__(self, crate, file, text):
        self.crate, self.file, self.lines = crate, file, text.splitlines()
        self.imports, self.passed, self.words = {}, [], {}

    def read(self):
        comment, arguments, at = [], [], 0
        while at < len(self.lines) and self.lines[at].startswith("--"):
            at += 1
        while at < len(self.lines):
            text, indent = self.lines[at].strip(), self.indent(at)
            arguments = [(depth, it) for depth, it in arguments if depth < indent or not text]
            if text.startswith("--"):
                comment, at = comment + [text[3:]] if not text.startswith("-- ----") else [], at + 1
                continue
            use, module = USE.match(text), MODULE.match(text)
            end = at + 1
            if use:
                self.use(*use.groups())
            elif module:
                arguments += [(indent, module[1])] * bool(module[1])
            elif text:
                end = self.define(at, indent, comment, [it for _, it in arguments])
            comment, at = [], end
        return self

    def indent(self, at):
        """How far in a line stands; a blank one nowhere."""
        line = self.lines[at] if at < len(self.lines) else ""
        return len(line) - len(line.lstrip()) if line.strip() else -1

    def use(self, is_passed, path, names, alias):
        for it in names.split(",") if names else ():
            name, _, called = it.strip().partition(" as ")
            self.imports[called or name] = path, name
            self.passed += [(path, name, called or name)] * bool(is_passed)
        self.passed += [(path, None, alias)] * bool(is_passed and names is None)

    def define(self, at, indent, comment, arguments):
        """A definition, from its head to the last of its equations, and where it ends. Equations without a head belong to what was defined."""
        found = HEAD.match(self.lines[at].strip())
        marks, name = found.groups() if found else ("", None)
        is_whole = "record" in marks or "data" in marks
        end = past = self.end(at + 1, indent, over_blanks=is_whole)
        if not found or (name in self.words and not marks):
            return end
        is_law = not ({"abbrev", "unfoldable"} & {*marks.split()} or is_whole) and ("-" in name or self.file.endswith("Laws"))
        kind = "set" if "ruleset" in marks else "law" if is_law else "word"
        while kind != "set" and not is_whole and self.indent(past) == indent and self.lines[past].split()[0] in ("unfolding", name):
            past = self.end(past + 1, indent)
        statement, body = ([line[indent:] for line in self.lines[begin:to]] for begin, to in ((at, end), (end, past)))
        laws = re.findall(r"[^\s(),=]+", " ".join(statement).partition("=")[2]) if kind == "set" else []
        self.words[name] = Word(kind, name, self.crate, self.file, "pub" in marks, comment, arguments, statement, body, self.imports, laws)
        return past

    def end(self, at, indent, over_blanks=False):
        """Where ends what stands deeper; in a record blank lines may stand between."""
        end = at
        while at < len(self.lines) and (self.indent(at) > indent or over_blanks and self.indent(at) < 0):
            at += 1
            end = at if self.indent(at - 1) > indent else end
        return end


def read(crate, path, file):
    return Reader(crate, file, path.read_text()).read()
