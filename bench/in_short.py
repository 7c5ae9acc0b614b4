#!/usr/bin/env python3
"""in_short.py: writes the table "In short" of README.md by RESULTS.md, and prints how many rows are as fast as a peer, and how many
about as fast in every layout, and which are not."""
import pathlib
import re

HERE = pathlib.Path(__file__).resolve().parent
NAMES = {
    "copy": "copy", "or": "`\\|=`", "swap": "exchange", "equality": "`==`", "copy_within": "copy within", "shift_start": "shift",
    "rotate_left": "rotation", "reverse": "reversal", "fill": "fill", "invert": "`!`", "count_ones": "count", "first_one": "search of zeros",
}
ELEMENTS = ["u64 Lsb0", "u64 Msb0", "u8 Lsb0", "u8 Msb0"]
SHIFTED = {"u64": 29, "u8": 3}
# What a row needs of the speed of its fastest peer, and the slowest layout of that of the fastest one.
WANTED, STEADY = 0.7, 0.8


def cells_of(text, head):
    """The cells of the table under a heading, a list for each row."""
    part = re.search(rf"^### {head}\n(.*?)(?=^### )", text, re.M | re.S)[1]
    lines = [it for it in part.splitlines() if it.startswith("| ") and not it.startswith("| operation")]
    return [[cell.strip() for cell in re.split(r"(?<!\\)\|", it)[1:-1]] for it in lines]


def through_c(text, bits):
    """Rows of so many bits: the operation, the elements, the phase, the speed beside the fastest peer and a loop, and the slowest layout
    beside the fastest one."""
    return [(*row[:5], f"{float(row[6]) / float(row[7]):.3g}") for row in cells_of(text, f"{bits} bits")]


def of_views(text):
    """Rows of 2^10 bits: the operation, the elements, the phase, and the speed beside the fastest peer."""
    every = [f"{width} {order}" for order in ("Lsb0", "Msb0") for width in ("u8", "u16", "u64")]
    rows = cells_of(text, "Windows of 1024 bits of views, in bits per ns")
    return [(row[0], it, row[1], f"{float(speed) / float(row[8]):.3g}") for row in rows for it, speed in zip(every, row[2:8])]


def is_shifted(elements, phase):
    """Whether a phase is that of the columns `shifted`; none where it is of neither."""
    width, by = int(elements.split()[0][1:]), int(re.search(r"\d+$", phase)[0])
    if phase.startswith(str(SHIFTED.get(f"u{width}"))) and "," in phase:
        return None
    return by % width == SHIFTED.get(f"u{width}") if by % width else False


def table(rows):
    """The table of README.md."""
    heads = ELEMENTS + [f"{it}, shifted" for it in ELEMENTS]
    lines = ["| operation | " + " | ".join(heads) + " |", "|" + "---|" * (len(heads) + 1)]
    for operation, name in NAMES.items():
        found = {(elements, is_shifted(elements, phase)): loop for it, elements, phase, _, loop, _ in rows if it == operation}
        cells = [found[elements, shifted] for shifted in (False, True) for elements in ELEMENTS]
        lines.append(f"| {name} | " + " | ".join(cells) + " |")
    return "\n".join(lines)


def print_slow(bits, rows, wanted, beside):
    """Prints how many of the rows have what is wanted of a speed, and which have less."""
    slow = [it for it in rows if float(it[3]) < wanted]
    print(f"{bits} bits: {len(rows) - len(slow)} of {len(rows)} rows have at least {wanted} of the speed of the fastest {beside}, but for")
    for row in slow:
        print("  " + ", ".join(row))


def main():
    text, readme = (HERE / "RESULTS.md").read_text(), HERE / "README.md"
    large, small = through_c(text, 1 << 20), through_c(text, 1 << 10)
    readme.write_text(re.sub(r"^\| operation \| u64 Lsb0.*?(?=\n\n)", lambda _: table(large), readme.read_text(), count=1, flags=re.M | re.S))
    print_slow("2^20", [it[:4] for it in large if it[3]], WANTED, "peer")
    print_slow("2^10", of_views(text), WANTED, "peer")
    print_slow("2^20", [(*it[:3], it[5]) for it in large], STEADY, "layout in the slowest one")
    print_slow("2^10", [(*it[:3], it[5]) for it in small], STEADY, "layout in the slowest one")


if __name__ == "__main__":
    main()
