"""The table of docs/COST.md: what each crate takes, what grew since the last table, and what is over its budget."""
import re
import statistics

import library
from library import TOP
from sampling import EDITS, PARTS, PROOF, TESTS

HEAD = """# What a proof costs

Seconds of a processor. `tools/cost .ci/run` measures them and writes this page. A crate's chain is the longest way to its end, by
`crates.txt`: the proofs of crates that wait for one another.

"""
ALL = "all"
COLUMNS = ["crate", *PARTS, "sum", "chain"]
ROW = re.compile(r"^\| (\w+) \|((?: [\d,]* \|){5})$", re.M)
PROGRAM, OF_TESTS, OF_EXAMPLES = 120, 200, 350
# What is smaller is a matter of the machine.
GROWN, LEAST, SAID_WHY, MANY = 1.2, 10, 120, 5


def read(file):
    """The seconds of the last table, by crate and part."""
    found = {}
    for name, cells in ROW.findall(file.read_text() if file.exists() else ""):
        numbers = [int(cell.strip().replace(",", "") or 0) for cell in cells.split("|")[:-1]]
        found.update({(name, part): number for part, number in zip(PARTS, numbers) if number and name != ALL})
    return found


def has(name, part):
    """Whether a crate has tests, or edits."""
    folder = TOP / "crates" / name
    if part == EDITS:
        return any(folder.glob("must-fail/*.edit"))
    return part == PROOF or any("#[test]" in path.read_text() for path in folder.glob("src/**/*.rt"))


def merged(lines, last, now):
    """The new table: what this run did, and else what the last one has."""
    found = {key: seconds for key, seconds in last.items() if key[0] in lines and has(*key)}
    found.update({key: round(seconds) for key, seconds in now.items() if key[0] in lines and round(seconds)})
    return found


def chains(lines, table):
    """The longest way to the end of each crate: the seconds, and the crates. Tests wait for the crates below, and nothing waits for them."""
    ends, ways = {}, {}
    for name in library.below(lines, *lines):
        before, way = max((ways[it] for it in lines[name][1] if it in ways), default=(0, []))
        ways[name] = before + table.get((name, PROOF), 0), [*way, name]
        ends[name] = before + max(table.get((name, part), 0) for part in (PROOF, TESTS)), [*way, name]
    return ends


def page(lines, table, said):
    """The text of docs/COST.md."""
    ends = chains(lines, table)
    rows = [[name, *(table.get((name, part), 0) for part in PARTS)] for name in lines]
    rows = [[*row, sum(row[1:]), ends[row[0]][0]] for row in rows]
    longest, way = max(ends.values())
    rows.append([ALL, *(sum(row[at] for row in rows) for at in range(1, 5)), longest])
    text = [[f"{it:,}" if it else "" for it in row[1:]] for row in rows]
    table = ["| " + " | ".join([row[0], *cells]) + " |" for row, cells in zip(rows, text)]
    head = ["| " + " | ".join(COLUMNS) + " |", "|---|" + "---:|" * 5]
    return HEAD + "\n".join([*head, *table, "", said, "", f"The longest chain, {longest:,} seconds: {', '.join(way)}."]) + "\n"


def budget(name):
    """What a crate may take, or nothing."""
    if name.endswith("_examples"):
        return OF_EXAMPLES
    if name.endswith("_tests"):
        return OF_TESTS
    return PROGRAM if (TOP / "crates" / name / "src/main.rt").exists() else None


def tell(lines, last, table, now):
    """Says what grew, and what is over its budget."""
    pairs = {key: (last[key], table[key]) for key in now if key in last and key in table}
    for (name, part), (was, seconds) in pairs.items():
        if seconds > GROWN * was and seconds - was >= LEAST:
            yield f"{name}: {part} grew from {was:,} to {seconds:,} seconds"
    if len(pairs) >= MANY:
        middle = statistics.median(seconds / was for was, seconds in pairs.values())
        yield f"the median of {len(pairs)} parts takes {middle:.2f} of what it took in the last table"
    more = sum(table.values()) - sum(last.values())
    if last and more >= SAID_WHY:
        yield f"all crates take {more:,} seconds more than in the last table: the commit says why"
    for name in lines:
        takes = sum(table.get((name, part), 0) for part in PARTS)
        if budget(name) and takes > budget(name):
            yield f"{name} takes {takes:,} seconds, and its budget is {budget(name)}"
