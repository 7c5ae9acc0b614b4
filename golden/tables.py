"""Reads a table of runs: which words, input and files a program is given, and what it has to print and leave.

A table is blocks with an empty line between two; a line that begins with `#` says something to the reader. In a block:

    $ WORDS            a run of the program with these words, cut and quoted as a shell does
    $ WORDS => TEXT    the same, where TEXT and a line feed are printed before the lines `>`
    ? INPUT => TEXT    a run with this standard input, to which no line feed is added
    < LINE             a line of standard input
    > LINE             a line that is printed
    ! STATUS           the status that the program ends with, where it isn't 0
    @ FILE BYTES       a file of the folder where the program runs, in hexadecimal digits; it has to stay as it is
    @ FILE BYTES => BYTES    the same, and its bytes afterwards
    input folder       standard input is a folder; `input closed`: there is none
    room N ..          standard output is a file that has room for N bytes, in a run for each N: it has the first N bytes
                       of the text, and the status is 1. `room less` stands for each N that is less than the text has
    disk N ..          files have room for N bytes, in a run for each N; standard output is none of them

All of a block holds of each line `$`, and of each with each line `?`. Afterwards the folder has just the files that the
block names. `\\s` is a space, `\\0` the byte 0, `\\t`, `\\r` and `\\n` are those of C, `\\xFF` is any byte, `\\\\` a backslash. `\\c` at
the end of a line takes its line feed away."""
import itertools
import re
import shlex
from dataclasses import dataclass, field

ESCAPE = re.compile(r"\\(x[0-9A-Fa-f]{2}|.|$)")
ESCAPED = {"s": b" ", "0": b"\0", "t": b"\t", "r": b"\r", "n": b"\n", "\\": b"\\"}
CUT = "\\c"
SOURCES = ("folder", "closed")
ROW = re.compile(r"(?P<given>.*?)(?:(?:^| )=>(?: (?P<wanted>.*)|$))?")


@dataclass
class Run:
    """A run, and what it has to print and leave."""

    line: int
    words: list
    input: bytes = b""
    source: str = "bytes"
    printed: bytes = b""
    status: int = 0
    before: dict = field(default_factory=dict)
    after: dict = field(default_factory=dict)
    room: int = None
    disk: int = None

    @property
    def limit(self):
        """How many bytes a file may have, if that is limited."""
        return self.disk if self.room is None else self.room

    @property
    def lacks(self):
        """Whether something is taken away from the run before the program starts."""
        return self.limit is not None or self.source == "closed"


@dataclass
class Row:
    """A line `$` or `?`: its number, what the program is given, and what it prints first."""

    line: int
    given: str
    printed: bytes


class Block:
    """The lines of a block."""

    def __init__(self):
        self.words = []
        self.inputs = []
        self.shared = Run(0, [])
        self.rooms = [None]
        self.disks = [None]

    def take(self, number, text):
        """Takes a line of the table."""
        key, _, rest = text.partition(" ")
        match key:
            case "$":
                self.words.append(row(number, rest))
            case "?":
                self.inputs.append(row(number, rest))
            case "<":
                self.shared.input += line_of(rest)
            case ">":
                self.shared.printed += line_of(rest)
            case "!":
                self.shared.status = int(rest)
            case "@":
                self.take_file(rest)
            case "input" if rest in SOURCES:
                self.shared.source = rest
            case "room":
                self.rooms = rest.split()
            case "disk":
                self.disks = [int(it) for it in rest.split()]
            case _:
                raise ValueError(key)

    def take_file(self, text):
        given, wanted = halves(text)
        name, _, digits = given.partition(" ")
        self.shared.before[name] = bytes.fromhex(digits)
        self.shared.after[name] = bytes.fromhex(digits if wanted is None else wanted)

    def runs(self):
        """The runs of the block."""
        shared = self.shared
        if not self.words or (self.inputs and shared.input):
            raise ValueError("a block has lines `$`, and not both of `?` and `<`")
        for words, given, disk in itertools.product(self.words, self.inputs or [None], self.disks):
            printed = words.printed + (given.printed if given else b"") + shared.printed
            for room in self.rooms_for(printed):
                yield Run(
                    line=given.line if given else words.line,
                    words=words_of(words.given),
                    input=bytes_of(given.given) if given else shared.input,
                    source=shared.source,
                    printed=printed[:room],
                    status=shared.status if room is None else 1,
                    before=shared.before,
                    after=shared.after,
                    room=room,
                    disk=disk,
                )

    def rooms_for(self, printed):
        if self.rooms == ["less"]:
            return range(len(printed))
        rooms = [room and int(room) for room in self.rooms]
        if any(room and room > len(printed) for room in rooms):
            raise ValueError("the text has fewer bytes than there is room for")
        return rooms


def bytes_of(text):
    """The bytes of a text with escapes."""
    parts = ESCAPE.split(text)
    parts[::2] = [it.encode() for it in parts[::2]]
    parts[1::2] = [bytes.fromhex(it[1:]) if it[:1] == "x" else ESCAPED[it] for it in parts[1::2]]
    return b"".join(parts)


def line_of(text):
    return bytes_of(text.removesuffix(CUT)) + b"\n" * (not text.endswith(CUT))


def words_of(text):
    """The words of a line. A backslash is no shell's: it begins an escape."""
    lexer = shlex.shlex(text, posix=True)
    lexer.whitespace_split = True
    lexer.escape = lexer.commenters = ""
    return [bytes_of(word) for word in lexer]


def halves(text):
    """What stands before `=>`, and what behind it if there is one."""
    found = ROW.fullmatch(text)
    return found["given"], found["wanted"]


def row(number, text):
    given, wanted = halves(text)
    return Row(number, given, line_of(wanted) if wanted else b"")


def read(path):
    """All runs of a table."""
    block = None
    for number, line in enumerate([*path.read_text().splitlines(), ""], 1):
        try:
            if line and not line.startswith("#"):
                block = block or Block()
                block.take(number, line)
            elif block and not line:
                yield from block.runs()
                block = None
        except (KeyError, ValueError) as error:
            raise SystemExit(f"golden/{path.name}:{number}: no such line in a table, or no such block: {error}") from None
