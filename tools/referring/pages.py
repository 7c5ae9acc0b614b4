"""The text of the reference's pages."""
import html
import re

from library import TOP
from referring.callers import by_entry
from referring.model import GHOST, NAME
from referring.notions import NOTIONS, SETS, STD, WRONG

MADE = "<!-- made by tools/reference from the sources: change these, and run it again -->\n"
SECTIONS = {"call": "Calls", "word": "Words", "law": "Laws", "set": "Sets"}
# Of the page of wrong bodies: where each kind stands, and what it is.
WRONG_BODIES = {
    "Edits of the gate": ("crates/*/must-fail/*.edit", "The prover has to refuse each, in every run of the gate."),
    "Edits tried by hand": ("compile_fail/edits/*/*.edit", "The prover has to refuse each; `compile_fail/edits.py` tries them."),
    "Mutants": ("compile_fail/mutants/*.patch", "Every clause admits these, or a test shows them more cheaply; `compile_fail/mutants.sh` tries that the tests fail "
                "which the first line of each names."),
}
FIRST = """Each call of `bitvec` and `bitrecord` with its contract, the words of contracts, and the laws that callers may cite. A name in a head or a statement is a link to where it is defined.

A word marked `abbrev` opens by itself. One marked `unfoldable` opens in any proof that names it in a line `unfolding`, or in `#[tactic(auto, unfolding(..))]`. A word without a mark opens nowhere else; laws tell what it says. In a terminal `rt lemma WORD..` prints a law or a word with its import.
"""
LINK = re.compile(r"\[`([^`\]]+)`\](?!\()|\[(`?[^`\]]+`?)\]\((crate::[\w:]+)\)")
TOKEN = re.compile(f"(?<!&)(?:{NAME.pattern}|{GHOST.pattern})")
# How many names a list has before it is folded, and how many callers a call shows.
FEW, CALLERS = 24, 3


class Pages:
    """Writes the pages of a model."""

    def __init__(self, model):
        self.model, self.shown, self.users = model, {*model.entries}, {}
        self.callers, self.by_page = by_entry(model), model.by_page()
        for entry in model.entries:
            for target in entry.targets:
                self.users.setdefault(target, []).append(entry)

    # ---- an entry

    def code(self, entry):
        """An entry's code, with a link at each name that is defined elsewhere in the reference."""
        def linked(found):
            if found.string[found.start() - 1:found.start()] == ".":
                target = self.model.ghost_target(entry.scope, found[0])
            else:
                target = self.model.target(entry.scope, found[0]) if found[0] not in entry.bound else None
            return f'<a href="{target.link}">{found[0]}</a>' if target in self.shown - {entry} else found[0]

        lines = (html.escape(line, quote=False) for line in entry.code)
        return "<pre>" + "\n".join(it if it.strip().startswith(("//", "--")) else TOKEN.sub(linked, it) for it in lines) + "</pre>"

    def documents(self, entry):
        """A `///` as Markdown: its links lead into the reference, and its examples are code."""
        parts = "\n".join(entry.text).split("```")
        return "```".join(f"rust{it}" if at % 2 and it.startswith("\n") else it if at % 2 else self.linked(entry, it) for at, it in enumerate(parts))

    def linked(self, entry, text):
        """A text with its links: each to the call of this name, if it is shown, by its name or by other words."""
        def link(found):
            path = [it for it in (found[1] or found[3]).split("::") if it not in ("crate", "self")]
            target, shown = self.model.told(entry, path), found[2] or f"`{'::'.join(path)}`"
            return f"[{shown}]({target.link})" if target else shown

        return LINK.sub(link, text)

    def body(self, entry):
        """What an entry has below its name."""
        is_call = entry.kind == "call"
        yield self.code(entry) if entry.code else ""
        yield self.documents(entry) if is_call else sentence(entry)
        if is_call and entry.scope.kind == "trait":
            yield from self.impls(entry)
        if is_call and entry.scope.kind in ("struct", "enum"):
            yield self.traits(entry)
        yield from (f"Checked: `{it}`" for it in entry.checked)
        if entry in self.callers:
            yield f"Proved callers: {', '.join(self.callers[entry][:CALLERS])}."
        if entry.kind == "set":
            yield "Laws: " + ", ".join(self.link(entry.scope, it) for it in entry.scope.laws)
        for kind, called in SECTIONS.items():
            users = [it for it in self.users.get(entry, ()) if it.kind == kind and not entry.kind == kind == "set"]
            if users and not is_call and entry.page is not STD:
                yield f"{called} that name it: {listed(users)}"
        yield f"<small>{entry.where}</small>"

    def link(self, scope, name):
        """A name as code, with a link where it is shown."""
        target = self.model.target(scope, name)
        return f"[`{name}`]({target.link})" if target in self.shown else f"`{name}`"

    def traits(self, entry):
        """Which traits a type has."""
        found = {impl.of[1]: self.link(impl, impl.of[1]) for impl in self.model.impls_for(entry.scope) if impl.of[1]}
        for derived in re.findall(r"#\[derive\((.*?)\)\]", " ".join(entry.scope.attributes)):
            found.update({name: f"`{name}`" for name in re.findall(r"\w+", derived)})
        return f"Traits: {', '.join(found[name] for name in sorted(found))}." if found else ""

    def impls(self, entry):
        """Which types have a trait, and what they give for the members that only contracts name."""
        found = {}
        for impl, given in self.model.given(entry.scope):
            found.setdefault("; ".join(f"`{it}`" for it in given), []).append(self.link(impl, impl.of[0]))
        for given, names in found.items():
            yield f"Types that have it{f' with {given}' if given else ''}: {', '.join(names)}."

    # ---- a page

    def section(self, title, entries):
        """A part of a page: a line for each entry, which leads to it, and then each below its name."""
        text = [f"## {title}\n", *(f"- [`{it.name}`](#{it.anchor}) {escaped(summary(it))}" for it in entries), ""] if entries else []
        for entry in entries:
            text.append(f'<a id="{entry.anchor}"></a>\n\n### `{entry.name}`\n')
            text += [it + "\n" for it in self.body(entry) if it.strip()]
        return text

    def page(self, notion):
        """The page of a notion: its calls, words and sets. Its laws have a page of their own."""
        text = [head(notion)]
        if any(it.kind == "law" for it in self.by_page.get(notion.name, ())):
            text.append(f"Its laws stand on [a page of their own](laws-{notion.name}.md).\n")
        for kind in ("call", "word", "set"):
            text += self.section(SECTIONS[kind], in_order(notion, [it for it in self.by_page.get(notion.name, ()) if it.kind == kind]))
        return text

    def laws_page(self, notion):
        """The laws of a notion, each below the first set that has it; no text where it has none."""
        by_set = {}
        for law in (it for it in self.by_page.get(notion.name, ()) if it.kind == "law"):
            of = next((it for it in self.users.get(law, ()) if it.kind == "set"), None)
            by_set.setdefault(of, []).append(law)
        about = f"The laws that callers may cite about [these]({notion.name}.md), by the [sets](sets.md) that have them.\n"
        text = [f"# Laws: {notion.title}\n\n{MADE}\n{about}"] if by_set else []
        for of in sorted(by_set, key=[*self.model.entries, None].index):
            text += self.section(f"Set [`{of.name}`]({of.link}) of `{of.scope.crate}`" if of else "In no set", by_set[of])
        return text

    def first_page(self):
        """The first page: the pages, with how much each has."""
        text = [f"# Reference\n\n{MADE}\n{FIRST}"]
        for notion in [*NOTIONS, SETS, STD]:
            kinds = [it.kind for it in self.by_page.get(notion.name, ())]
            counts = [(kind, counted(kinds.count(kind), title.lower())) for kind, title in SECTIONS.items() if kind in kinds]
            shown = ", ".join(f"[{count}](laws-{notion.name}.md)" if kind == "law" else count for kind, count in counts)
            text.append(f"- [{notion.title}]({notion.name}.md): {notion.about} ({shown})")
        return [*text, f"- [{WRONG.title}]({WRONG.name}.md): {WRONG.about}"]


def wrong_page():
    """The page of wrong bodies, by who tries them: what the comment of each says, and the other lines of its file."""
    text = [head(WRONG)]
    for title, (pattern, about) in WRONG_BODIES.items():
        text.append(f"## {title}\n\n{about}\n")
        for path in sorted(TOP.glob(pattern)):
            lines = path.read_text().splitlines()
            code = html.escape("\n".join(it for it in lines if not it.startswith("#")), quote=False)
            said = " ".join(it[2:] for it in lines if it.startswith("# "))
            text.append(f"### `{path.stem}`\n\n{said}\n\n<pre>{code}</pre>\n\n<small>`{path.relative_to(TOP).as_posix()}`</small>\n")
    return text


def escaped(text):
    """Plain words as Markdown: what would be read as marks is escaped, but in code spans."""
    parts = re.split(r"(`[^`]*`)", text)
    return "".join(it if it.startswith("`") else re.sub(r"([*_<>|\[\]])", r"\\\1", it) for it in parts)


def sentence(entry):
    """A comment of a definition as a sentence."""
    text = " ".join(line.strip() for line in entry.text).strip()
    first = re.match(r"(?:a|[a-z]{2,})(?![\w'`])", text)
    if first and first[0] not in entry.bound | {entry.name}:
        text = text[0].upper() + text[1:]
    return escaped(text) + ("" if not text or text[-1] in ".:!?" else ".")


def summary(entry):
    """The first sentence of a comment, as plain words."""
    text = "\n".join(line.strip() for line in entry.text).partition("\n\n")[0].partition("```")[0].replace("\n", " ").strip()
    found = re.match(r".*?\.(?= |$)", text)
    return re.sub(r"\[(`[^`]*`)\]", r"\1", found[0] if found else text)


def listed(entries):
    """Links to entries, folded where they are many."""
    entries = sorted(entries, key=lambda it: (it.name.lower(), it.anchor))
    text = ", ".join(f"[`{it.name}`]({it.link})" for it in entries)
    return text if len(entries) <= FEW else f"{len(entries)}.\n<details markdown=\"1\"><summary>all of them</summary>\n\n{text}\n\n</details>\n"


def head(notion):
    """The title of a page, what it is of, and the page of docs/ that a reader learns it from."""
    guide = notion.guide and (TOP / "docs" / notion.guide).read_text().partition("\n")[0].removeprefix("# ")
    return f"# {notion.title}\n\n{MADE}\n{notion.about}{f' [{guide}](../{notion.guide}) is a page to learn it from.' if guide else ''}\n"


def in_order(notion, entries):
    """The entries of a page in the order of use."""
    return sorted(entries, key=lambda it: notion.rank(it.scope.file) if it.kind == "call" else 0)


def counted(number, title):
    return f"{number} {title[:-1] if number == 1 else title}"


def pages(model):
    """The text of each page, by its file."""
    made = Pages(model)
    found = {f"{notion.name}.md": made.page(notion) for notion in [*NOTIONS, SETS, STD]}
    found |= {f"laws-{notion.name}.md": made.laws_page(notion) for notion in NOTIONS}
    found |= {f"{WRONG.name}.md": wrong_page(), "README.md": made.first_page()}
    return {file: re.sub(r"\n{3,}", "\n\n", "\n".join(text)).rstrip() + "\n" for file, text in found.items() if text}
