"""What a must-fail edit says: the texts that it changes, the goals that must refuse it, and its witnesses.

Beside what `rt` reads, an edit has lines that begin with `#` and a word:

    #goal: FUNCTION CLAUSE       what must refuse it: a clause of a function, by the function's path in the crate
    #also: FUNCTION CLAUSE       what the prover can't show either, though it may hold
    #row: CRATE module::test ..  tests of that crate which fail with it; `NAME test` of bindings/rust/tests/NAME.rs, `PROGRAM stdout` of its own run
    #control: TEXT               before a `new:`, what stands there in the control: the smallest right change of that shape, which is proved

A clause is named as the prover names it: `value` of `ensures value`, `returns` where a function ensures one thing or its proof shows all at
once, `loop-NAME-preserved` of a loop, `CALL-requires` of a call."""
import dataclasses
import pathlib

TOP = pathlib.Path(__file__).resolve().parents[1]
OF_GATE, BY_HAND = "crates/*/must-fail/*.edit", "compile_fail/edits/*/*.edit"


@dataclasses.dataclass
class Edit:
    """An edit, with what its lines say."""

    path: pathlib.Path
    crate: str
    # the pairs of an old text and a new one, each with its file, and what stands there in the control, if that is another text
    pairs: list
    goals: set
    also: set
    # the rows: a crate, or a file of tests, and the tests there
    rows: list

    @property
    def name(self):
        return f"{self.crate}/{self.path.stem}"

    @property
    def has_control(self):
        return any(right is not None for *_, right in self.pairs)

    def texts(self, folder, control=False):
        """The files that it changes in a crate's folder, each with its new text."""
        found = {}
        for file, old, new, right in self.pairs:
            text = found.get(file) or (folder / file).read_text()
            if text.count(old) != 1:
                raise SystemExit(f"{self.name}: an old text stands {text.count(old)} times in {file}")
            found[file] = text.replace(old, right if control and right is not None else new)
        return found


def read(path):
    """The edit of a file."""
    crate = path.parts[-3] if path.parts[-2] == "must-fail" else path.parts[-2]
    file, old, right = None, None, None
    edit = Edit(path, crate, [], set(), set(), [])
    for line in path.read_text().splitlines():
        word, _, text = line.partition(":")
        text = text.removeprefix(" ")
        if word == "file":
            file = text
        elif word == "old":
            old = text
        elif word == "#control":
            right = text
        elif word == "#goal":
            edit.goals.add(tuple(text.split()))
        elif word == "#also":
            edit.also.add(tuple(text.split()))
        elif word == "#row":
            edit.rows.append((text.split()[0], text.split()[1:]))
        elif word == "new":
            edit.pairs.append((file, old, text, right))
            right = None
    return edit


def edits():
    """All edits, those of the gate first."""
    return [read(path) for pattern in (OF_GATE, BY_HAND) for path in sorted(TOP.glob(pattern))]
