"""What the reference speaks of: each call, word, law and set as an entry, with the names that its text may link."""
import dataclasses
import re

from library import BITVEC, RECORDS
from referring import antt, rust
from referring.notions import SETS, STD, page_of
from referring.sources import SPECS, Sources, files

# The longest line of a statement; a longer one goes on after an arrow.
WIDTH = 116
# The most lines of a word of std, and the longest text that a type gives for a ghost member.
STD_LINES, GIVEN = 14, 90

NAME = re.compile(r"(?<![\w.'])[A-Za-z_][\w']*(?:-[\w']+)*")
BOUNDS = re.compile(r"(?:: |\+ |\btrait )([A-Z]\w+)")
GHOST = re.compile(r"(?<=\bSelf\.)[a-z][\w-]*|(?<=\b[A-Z]\.)[A-Za-z][\w-]*")
BOUND = re.compile(r"[({]((?:[\w'.]+ )+): |λ ((?:[\w'() :]+?))\. ")


@dataclasses.dataclass(eq=False)
class Entry:
    """An entry of a page: code with links, and text. Its scope is the item or the word that it is of, and bound are names that it binds itself."""

    kind: str
    name: str
    page: object
    anchor: str
    code: list
    text: list
    scope: object
    where: str
    bound: set = dataclasses.field(default_factory=set)
    targets: set = dataclasses.field(default_factory=set)
    checked: list = dataclasses.field(default_factory=list)

    @property
    def link(self):
        return f"{'laws-' * (self.kind == 'law')}{self.page.name}.md#{self.anchor}"


class Model:
    """The entries, and how names lead to them."""

    def __init__(self):
        self.sources = Sources(BITVEC, RECORDS)
        self.entries, self.by_scope, self.by_name, self.members = [], {}, {}, {}
        self.impls = [it for items in self.sources.items.values() for it in items if it.kind == "impl"]
        self.add_calls()
        self.add_words()
        self.link()
        self.add_worked()

    def by_page(self):
        """The entries of each page."""
        found = {}
        for entry in self.entries:
            found.setdefault(entry.page.name, []).append(entry)
        return found

    # ---- calls

    def passed_on(self):
        """The items that `bitvec` and records pass on, each with a path by which a user names it."""
        for (crate, file), uses in self.sources.uses.items():
            if crate in (BITVEC, RECORDS):
                home = crate if file == "lib" else f"{crate}::{file}"
                for is_public, path, name, alias in uses:
                    of = path.split("::")[0] if path.split("::")[0] in self.sources.crates else crate
                    item = self.sources.item(of, name) if is_public else None
                    inner = self.sources.items.get((of, name), ()) if is_public and not item else ()
                    yield from ((it, f"{home}::{alias}") for it in [item] if item)
                    yield from ((it, f"{home}::{alias}::{it.name}") for it in inner)
                is_open = any(it.kind == "mod" and it.name == file and it.is_public for it in self.sources.items[crate, "lib"])
                yield from ((it, f"{home}::{it.name}") for it in self.sources.items[crate, file] if is_open)

    def add_calls(self):
        self.paths = {}
        for item, path in self.passed_on():
            if item.is_public and item.kind not in ("impl", "mod"):
                self.paths.setdefault(item, []).append(path)
        for item in sorted(self.paths, key=lambda it: (self.sources.crates.index(it.crate), it.file)):
            if not item.is_hidden:
                self.add_item(item)

    def add_item(self, item):
        if item.kind == "trait":
            for name in [*(name for name, _, _ in item.ghosts), *(it.name for it in item.items if it.kind == "const")]:
                self.members.setdefault(name, []).append(item)
        self.add_call(item, item.name, trait_head(item) if item.kind == "trait" else item.head, item.docs)
        for inner in item.items:
            self.add_method(item, item.head, inner)
        for impl in self.impls_for(item) if item.kind in ("struct", "enum", "type") else ():
            self.add_impl(item, impl)

    def impls_for(self, item):
        """The impls for a type: of its crate, or of one that imports it."""
        for impl in self.impls:
            if impl.of[0] == item.name and (impl.crate == item.crate or impl.imports.get(item.name, ("",))[0].split("::")[0] == item.crate):
                yield impl

    def add_impl(self, item, impl):
        """The methods of an impl for a type, or, where it has a contract of its own, the impl of a trait that isn't shown."""
        trait = impl.of[1]
        for inner in impl.items if not trait else ():
            if inner.is_public:
                self.add_method(item, impl.head, inner)
        methods = [inner for inner in impl.items if inner.kind == "fn" and len(inner.head) > 1]
        if trait and methods and trait not in {it.name for it in self.paths} | {"Clone", "Drop"}:
            code = [impl.head[0].rstrip("{ "), *(f"    {line}" for inner in methods for line in inner.head)]
            docs = impl.docs or [line for inner in methods for line in inner.docs] or [f"What `{trait}` does here: {', '.join(f'`{it.name}`' for it in methods)}."]
            self.add_call(impl, f"{trait} for {item.name}", code, docs, f"{item.name}.{trait}.{len(self.entries)}")

    def add_method(self, item, head, inner):
        if not inner.is_hidden and inner.kind in ("fn", "const", "type"):
            inner.around = [" ".join(line.strip() for line in head).rstrip("{ ")]
            code = [*inner.around, *(f"    {line}" for line in inner.head)]
            self.add_call(inner, f"{item.name}::{inner.name}", code, inner.docs, f"{item.name}.{inner.name}")

    def add_call(self, item, name, code, docs, anchor=None):
        paths = sorted(self.paths.get(item, ()), key=lambda it: "::prelude::" not in it)
        where = ", ".join([*(f"`use {it}`" for it in paths[:1]), f"`{item.crate}`", f"`src/{item.file}.rt`"])
        anchor = f"{short(item.crate)}.{anchor or item.name}"
        entry = Entry("call", name, page_of(item.crate, item.file), anchor, shown_fields(code) if item.kind == "struct" else code, docs, item, where)
        self.entries.append(entry)
        self.by_scope[item] = entry
        self.by_name.setdefault(name, []).append(entry)

    def given(self, trait):
        """The impls of a trait, each with what its type gives for the members that only contracts name, where it is short."""
        wanted = {name for name, _, _ in trait.ghosts}
        for impl in self.impls:
            if impl.of[1] == trait.name:
                texts = [" ".join(lines).removeprefix("ghost ").rstrip(";") for name, _, lines in impl.ghosts if name in wanted]
                yield impl, [it for it in texts if len(it) < GIVEN]

    # ---- words, laws and sets

    def add_words(self):
        """The entries of all words. By which path of `bitvec` a file, or a word of a file, is named, say those that its specs/ pass on."""
        self.named = {}
        for file in filter(lambda it: it.crate == BITVEC, self.sources.specs()):
            for path, only, alias in file.passed:
                is_file = file.file == "Lib" and only is None
                self.named[path, only] = f"Rattle.bitvec.specs.{(alias or path.rpartition('.')[2]) if is_file else file.file}"
        for file in self.sources.specs():
            for word in file.words.values() if not file.file.endswith("Examples") else ():
                self.entry_of(word)

    def entry_of(self, scope):
        """The entry of an item or a word, if it has one; each word that has a name of letters may have one, those of std too."""
        if isinstance(scope, antt.Word) and scope not in self.by_scope:
            is_std = scope.crate not in self.sources.crates
            if is_std and (scope.kind == "law" or not NAME.fullmatch(scope.name)):
                return None
            page = STD if is_std else SETS if scope.kind == "set" else page_of(scope.crate, scope.file)
            anchor = f"{scope.crate if is_std else short(scope.crate)}.{scope.file}.{scope.name}"
            code = code_of(scope)[:STD_LINES if is_std else None]
            where = f"`{scope.crate}` of the kit, `specs/{scope.file.replace('.', '/')}.antt`" if is_std else self.where_of(scope)
            self.by_scope[scope] = Entry("word" if is_std else scope.kind, scope.name, page, anchor, code, scope.comment, scope, where, bound_in(scope))
        return self.by_scope.get(scope)

    def where_of(self, word):
        """By which import callers name a word or a law, and where it stands."""
        path = f"Rattle.{word.crate}.specs.{word.file}"
        if word.crate not in (BITVEC, RECORDS):
            path = self.named.get((path, None)) or self.named.get((path, word.name))
        elif word.file == "Laws":
            return f"`using({word.crate}::specs::Laws::{word.name})`"
        return ", ".join([f"`ghost use {path}.{{{word.name}}}`"] * bool(path) + [f"`{word.crate}`", f"`specs/{word.file.replace('.', '/')}.antt`"])

    # ---- links

    def target(self, scope, name):
        """The entry that a name leads to, where it stands in an item's head or a word's statement."""
        path, original = scope.imports.get(name, ("", name))
        if path.startswith(("Rattle.", "mathlib.", "lib.")):
            return self.entry_of(self.sources.find(path, original))
        if isinstance(scope, rust.Item):
            crate = path.split("::")[0]
            return self.entry_of(self.sources.item(scope.crate if crate in ("crate", "self", "super", "") else crate, original))
        is_own = not path and scope.crate in self.sources.crates
        return self.entry_of(self.sources.find(f"Rattle.{scope.crate}.specs.{scope.file}", name)) if is_own else None

    def told(self, entry, path):
        """The call that an entry's `///` means by a path: one of its own trait or type, of its crate, that its file imports, or any."""
        own, last = entry.name.rpartition("::")[0], path[-1] if path else ""
        names = ["::".join(path[-2:]) if path[1:] else f"{own}::{last}", last]
        found = [it for name in names for it in self.by_name.get(name, ())]
        near = [it for it in found if it.scope.crate == entry.scope.crate]
        return next(filter(None, [*near, self.target(entry.scope, last), *found]), None)

    def ghost_target(self, scope, name):
        """The trait that has the member which `Self.name`, `T.name` or `O.name` means in a contract, by the bounds at hand."""
        found = {*self.members.get(name, ())} if isinstance(scope, rust.Item) else ()
        bounds = {bound for line in (*scope.around, *scope.head) for bound in BOUNDS.findall(line)} if found else ()
        found = [it for it in found if it.name in bounds] or [*found]
        return self.entry_of(found[0]) if len(found) == 1 else None

    def link(self):
        """Goes from the calls, the laws that callers may name and the sets to all that they name, and so on; what is reached is shown."""
        passed = {SPECS.match(path).groups() for path, only, _ in self.sources.file(f"Rattle.{BITVEC}.specs.Lib").passed if only is None and SPECS.match(path)}
        words = [it for it in self.by_scope.values() if it.kind != "call"]
        queue = [it for it in words if it.scope.is_public and (it.scope.crate in (BITVEC, RECORDS) or (it.scope.crate, it.scope.file) in passed)]
        queue += self.entries
        reached = set(queue)
        while queue:
            entry = queue.pop()
            text = " ".join(entry.code)
            names = {*NAME.findall(text), *(entry.scope.laws if entry.kind == "set" else ())} - entry.bound
            entry.targets = {self.target(entry.scope, name) for name in names} | {self.ghost_target(entry.scope, name) for name in GHOST.findall(text)}
            entry.targets -= {None, entry}
            new = {it for it in entry.targets - reached if it.kind not in ("law", "set") or entry.kind == "set"}
            reached |= new
            queue += new
        # the sets that callers name come first
        self.entries += sorted((it for it in words if it in reached), key=lambda it: (it.kind == "set", it.scope.crate != BITVEC and it.kind == "set"))
        self.entries += sorted((it for it in reached if it.page is STD), key=lambda it: (it.name.lower(), it.anchor))

    def add_worked(self):
        """Gives each word its worked lines: those of files *Examples.antt that are named after it."""
        for crate in self.sources.lines:
            for path, name in files(crate, "specs", "antt"):
                for word in antt.read(crate, path, name).words.values() if name.endswith("Examples") else ():
                    of = word.name.rpartition("-")[0]
                    target = self.target(word, of) if of in word.imports else None
                    if target in self.entries:
                        target.checked.append(" ".join(word.statement).partition(" : ")[2])


def short(crate):
    return crate.removeprefix("bitvec_")


def trait_head(item):
    """A trait's head, with the members that only contracts name."""
    lines = [item.head[0].rstrip("{ ")]
    for _, notes, text in item.ghosts:
        lines += [f"    // {line}" for line in notes] + [f"    {line}" for line in text]
    return lines


def shown_fields(head):
    """The head of a struct with its public fields, and a word in place of the others."""
    if not head[0].endswith("{"):
        return [re.sub(r"\((?!pub).*\);", "(..);", line) for line in head]
    fields = re.findall(r"(?:^ *///.*\n)*^ *[^ /\n].*\n", "\n".join(head[1:-1]) + "\n", re.M)
    shown = [line for field in fields if re.search(r"^ *pub ", field, re.M) for line in field.splitlines()]
    rest = ["    .."] * (len(shown) < sum(field.count("\n") for field in fields))
    return [head[0], *shown, *rest, "}"] if shown else [head[0].rstrip(" {") + " { .. }"]


def code_of(word):
    """A word with its definition, a law as one statement with the arguments of the modules around it."""
    if word.kind == "set":
        return []
    head = [re.sub(r"^((?:abbrev |unfoldable )?)pub ", r"\1", word.statement[0]), *word.statement[1:]]
    if word.arguments and word.kind == "law":
        name, _, rest = head[0].partition(" : ")
        head = [f"{name} {' '.join(word.arguments)}", f"  : {rest}", *head[1:]]
    elif word.arguments:
        head = [f"-- {' '.join(word.arguments)}", *head]
    return [part for line in head for part in broken(line)] + (word.body if word.kind == "word" else [])


def broken(line):
    """A statement's line, broken before an arrow where it is long."""
    at = line.rfind(" → ", 1, WIDTH)
    return [line[:at], *broken("    " + line[at + 1:])] if len(line) > WIDTH and line[:max(at, 0)].strip() else [line]


def bound_in(word):
    """The names that a statement binds itself."""
    groups = BOUND.findall(" ".join([*word.arguments, *word.statement, *word.body]))
    found = {name for names, lambdas in groups for name in re.findall(r"[\w']+", names or lambdas)}
    for line in word.body:
        if line.startswith(f"{word.name} ") and " = " in line:
            found |= {*re.findall(r"\b[a-z][\w']*", line.partition(" = ")[0].partition(" ")[2])}
    return found - {word.name}
