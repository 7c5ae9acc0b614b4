"""The index: each public call, word, law and set as one line with its head and its file, by pages in the order of use."""
import re

from library import TOP
from referring.callers import callers
from referring.notions import NOTIONS, SETS
from referring.pages import SECTIONS, in_order

ABOUT = """Fehimbary: each public call, word, law and set, with its head and its file.

tools/reference --write makes this from the sources. `make -C docs site` builds pages with each contract, the text of each call, the
definition of each word, who names it, and search. In a crate's folder `rt lemma WORD..` prints a law or a word with its import.
"""


def head(entry):
    """The head of an entry as one line, without contract and body."""
    if entry.kind == "set":
        return f"{entry.name} = {len(entry.scope.laws)} laws"
    if entry.kind != "call":
        return one_line(re.sub(r"\bpub ", "", line) for line in entry.scope.statement)
    lines = []
    for line in entry.code if entry.scope.kind == "struct" else entry.scope.head:
        if lines and re.match(r"\s*(?:requires|ensures)", line):
            break
        lines.append(line)
    text = re.sub(r"(?<=\() | (?=\))|\bpub |\bfinal |\bconst (?=fn)", "", one_line(lines)).rstrip("{; ")
    of = entry.name.rpartition("::")[0]
    return re.sub(r"\b(fn|const|type) ", rf"\1 {of}::", text, count=1) if of else text


def one_line(lines):
    return " ".join(" ".join(line for line in lines if not line.strip().startswith(("///", "--"))).split()).replace(",)", ")").replace(",>", ">")


def file_of(entry):
    folder, ending = ("src", "rt") if entry.kind == "call" else ("specs", "antt")
    return f"crates/{entry.scope.crate}/{folder}/{entry.scope.file.replace('.', '/')}.{ending}"


def examples(lines):
    """The proved callers that pages name, each with its file."""
    named = {name for page in TOP.glob("docs/*.md") for name in re.findall(r"`(\w+)`", page.read_text())}
    for _, path, _, item in callers(lines):
        if item.name in named:
            yield f"example {item.name}  {path.relative_to(TOP)}"


def index(model):
    """The text of the index."""
    by_page, text = model.by_page(), [ABOUT]
    for notion in [*NOTIONS, SETS]:
        text.append(f"== {notion.title}: {notion.about}\n")
        entries = by_page.get(notion.name, ())
        for kind in SECTIONS:
            text += [f"{kind} {head(it)}  {file_of(it)}" for it in in_order(notion, [it for it in entries if it.kind == kind])]
        text.append("")
    text += ["== Examples: proved callers that pages name\n", *sorted(examples(model.sources.lines))]
    return "\n".join(text).rstrip() + "\n"
