"""Names that calls have in the package and not in the sources: where memory may be refused a call is `try_..`, with an allocator
`.._in`, and what lends one piece at a time is `lending_..`. The plain names are those of calls by hand, as `bitvec` has them."""
import re

from tokens import is_mark, is_word

# Of a sequence: what answers a result.
OWNED = {name: f"try_{name}" for name in (
    "push", "insert", "resize", "reserve", "append", "split_off", "drain", "extend_from_bitslice", "extend_from_bools",
    "extend_highest_first", "extend_lowest_first")}
MADE = {name: f"try_{name.removesuffix('_in')}_in" for name in ("with_capacity_in", "from_bitslice", "from_bools", "repeat")}
# Of what is copied with an allocator.
COPIED = {name: f"try_{name}_in" for name in ("to_bitvec", "to_vec", "repeat")}
# Of a writable view: walks, splits and halves that lend.
LENDING = {name: f"lending_{name}" for name in (
    "iter_mut", "split_at_mut", "split_at_unchecked_mut", "split_first_mut", "split_last_mut", "chunks_mut", "chunks_exact_mut",
    "rchunks_mut", "rchunks_exact_mut", "split_mut", "split_inclusive_mut", "rsplit_mut", "splitn_mut", "rsplitn_mut")}
TRAITS = {"ToBitVec": COPIED, "PieceCallsMut": LENDING, "SplitCallsMut": LENDING}
# How many arguments a call by a path has that makes a sequence, and one that copies.
COUNTS = {"with_capacity_in": 2, "from_bitslice": 2, "from_bools": 2, "repeat": 3}
COPIES = {"to_bitvec": 1, "to_vec": 1, "repeat": 2}
# Methods of slices too, which the library's own text calls.
OF_SLICES = ("iter_mut", "split_at_mut")


def renamed(items):
    """The items, whose methods have the package's names."""
    for item in items:
        for method in item.items or []:
            if method.kind == "fn":
                method.name = names_in(item).get(method.name, method.name)
    return items


def names_in(outer):
    """The names of the methods of a trait or an impl that differ."""
    words = [node.text for node in outer.head if is_word(node)]
    if trait := next((name for name in TRAITS if name in words), None):
        return TRAITS[trait]
    is_inherent = outer.kind == "impl" and "BitVec" in words and "for" not in words
    return {**OWNED, **MADE} if is_inherent else {}


def called(name, count, before, is_test):
    """The name in a call of so many arguments; `before` is what stands before `::`, None where a method is called."""
    if before is not None:
        return MADE[name] if COUNTS.get(name) == count and not is_mark(before, ")") else name
    if name in LENDING and (is_test or name not in OF_SLICES):
        return LENDING[name]
    if COPIES.get(name) == count:
        return COPIED[name]
    return OWNED.get(name, name)


def in_documents(line):
    """A line of an example, whose calls have the package's names."""
    for names in (OWNED, LENDING):
        line = re.sub(r"\.(\w+)\(", lambda found: f".{names.get(found[1], found[1])}(", line)
    line = re.sub(r"\.(to_bitvec|to_vec|repeat)\((?=Global)", lambda found: f".{COPIED[found[1]]}(", line)
    return re.sub(r"::(\w+)\((?=Global)", lambda found: f"::{MADE.get(found[1], found[1])}(", line)


def in_links(line):
    """A line of documents, whose links name a trait's methods as the package has them."""
    return re.sub(rf"\b({'|'.join(TRAITS)})::(\w+)", lambda found: f"{found[1]}::{TRAITS[found[1]].get(found[2], found[2])}", line)
