#!/usr/bin/env python3
"""panels.py: draws short.svg by RESULTS.md: the bits a nanosecond of four operations on 2^20 bits in bytes, beside others."""
import pathlib

from in_short import cells_of

HERE = pathlib.Path(__file__).resolve().parent
PANELS = {"copy": ("copy", "0, 0"), "copy, shifted": ("copy", "0, 3"), "==, shifted": ("equality", "0, 3"), "count of ones": ("count_ones", "0")}
BARS = {"Fehimbary": (5, "#1f77d0"), "fastest peer": (8, "#e08f1e"), "plain loop": (10, "#555"), "libc": (11, "#aaa")}
WIDTH, LEFT, BAR, MOST = 400, 100, 20, 215


def text(x, y, words, more=""):
    return f'<text x="{x}" y="{y}" {more}>{words}</text>'


def panel(number, title, cells):
    """The bars of an operation, each with its number and, of the peer, its name."""
    left, top = number % 2 * WIDTH, 40 + number // 2 * (5 * BAR + 20)
    yield text(left + LEFT, top, title, 'font-weight="bold"')
    for place, (name, (column, colour)) in enumerate((name, bar) for name, bar in BARS.items() if cells[bar[0]]):
        y, length = top + 8 + place * BAR, float(cells[column]) / MOST * (WIDTH - LEFT - 110)
        yield text(left + LEFT - 6, y + 13, name, 'text-anchor="end"')
        yield f'<rect x="{left + LEFT}" y="{y}" width="{max(length, 1):.0f}" height="{BAR - 4}" fill="{colour}"/>'
        peer = f" {cells[9]}".replace("<", "&lt;").replace(">", "&gt;") if name == "fastest peer" else ""
        yield text(left + LEFT + round(length) + 4, y + 13, cells[column] + peer)


def main():
    rows = cells_of((HERE / "RESULTS.md").read_text(), f"{1 << 20} bits")
    found = {title: next(row for row in rows if (row[0], row[1], row[2]) == (name, "u8 Lsb0", phase)) for title, (name, phase) in PANELS.items()}
    drawn = [line for number, (title, cells) in enumerate(found.items()) for line in panel(number, title, cells)]
    head = f'<svg xmlns="http://www.w3.org/2000/svg" width="{2 * WIDTH}" height="245" font-family="sans-serif" font-size="12">'
    title = text(20, 18, "Bits a nanosecond, of 2^20 bits in bytes, first bit lowest", 'font-size="13"')
    (HERE / "short.svg").write_text("\n".join([head, '<rect width="100%" height="100%" fill="white"/>', title, *drawn, "</svg>", ""]))


main()
