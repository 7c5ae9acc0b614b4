"""Draws the speeds that the driver prints for a plot, of all layouts: `plot.py < TIMES > speeds.svg`.

A line of the input is an operation, a name, a number of bits and the nanoseconds of a call, with tabs between; of times of
one call the median counts. Each operation
has a panel, each name a line, both axes are logarithmic: the bits of a call from left to right, the bits per ns upwards."""
import math
import statistics
import sys

COLUMNS, WIDTH, HEIGHT, MARGIN, HEAD = 4, 230, 170, 50, 40
LEAST, MOST = -2, 3  # powers of ten of the bits per ns
STYLES = {
    "u64": 'stroke="#0b3d91" stroke-width="2.5"',
    "u16": 'stroke="#1f77d0" stroke-width="2"',
    "u8": 'stroke="#6db3f2" stroke-width="2"',
    "vector<bool>": 'stroke="#d62728"',
    "dynamic_bitset": 'stroke="#e08f1e"',
    "fixedbitset": 'stroke="#2ca02c"',
    "bit-vec": 'stroke="#9467bd"',
    "loop": 'stroke="#333" stroke-dasharray="5 3"',
    "libc": 'stroke="#888" stroke-dasharray="2 2"',
}


def escaped(text):
    return text.replace("&", "&amp;").replace("<", "&lt;").replace(">", "&gt;")


def text(x, y, words, more=""):
    return f'<text x="{x:.1f}" y="{y:.1f}" {more}>{escaped(words)}</text>'


def line(x, y, to_x, to_y, style):
    return f'<line x1="{x:.1f}" y1="{y:.1f}" x2="{to_x:.1f}" y2="{to_y:.1f}" {style}/>'


class Panel:
    """The axes of one operation."""

    def __init__(self, number, sizes):
        self.sizes = sizes
        self.left = MARGIN + number % COLUMNS * (WIDTH + MARGIN)
        self.top = HEAD + MARGIN + number // COLUMNS * (HEIGHT + MARGIN)

    def x(self, bits):
        least, most = math.log2(self.sizes[0]), math.log2(self.sizes[-1])
        return self.left + (math.log2(bits) - least) / (most - least) * WIDTH

    def y(self, speed):
        share = (math.log10(speed) - LEAST) / (MOST - LEAST)
        return self.top + (1 - min(max(share, 0), 1)) * HEIGHT

    def axes(self, operation):
        yield text(self.left, self.top - 8, operation, 'font-weight="bold"')
        for power in range(LEAST, MOST + 1):
            y = self.y(10**power)
            yield line(self.left, y, self.left + WIDTH, y, 'stroke="#ddd"')
            yield text(self.left - 4, y + 4, f"{10**power:g}", 'text-anchor="end"')
        for bits in self.sizes:
            yield line(self.x(bits), self.top, self.x(bits), self.top + HEIGHT, 'stroke="#eee"')
            yield text(self.x(bits), self.top + HEIGHT + 13, f"2^{bits.bit_length() - 1}", 'text-anchor="middle"')

    def curve(self, name, times):
        points = " ".join(f"{self.x(bits):.1f},{self.y(bits / statistics.median(times[bits])):.1f}" for bits in sorted(times))
        return f'<polyline points="{points}" fill="none" {STYLES[name]}><title>{escaped(name)}</title></polyline>'


def legend(names):
    for number, name in enumerate(names):
        x, y = MARGIN + number * 120, 44
        yield f'<polyline points="{x},{y - 4} {x + 24},{y - 4}" fill="none" {STYLES[name]}/>'
        yield text(x + 30, y, name)


def drawing(operations):
    sizes = sorted({bits for lines in operations.values() for times in lines.values() for bits in times})
    names = [name for name in STYLES if any(name in lines for lines in operations.values())]
    yield text(MARGIN, 20, "Bits per ns, by the bits of a call", 'font-size="14"')
    yield from legend(names)
    for number, (operation, lines) in enumerate(operations.items()):
        panel = Panel(number, sizes)
        yield from panel.axes(operation)
        yield from (panel.curve(name, lines[name]) for name in reversed(names) if name in lines)


def main():
    operations = {}
    for row in sys.stdin:
        operation, name, bits, nanoseconds = row.rstrip("\n").split("\t")
        operations.setdefault(operation, {}).setdefault(name, {}).setdefault(int(bits), []).append(float(nanoseconds))
    width = COLUMNS * (WIDTH + MARGIN) + MARGIN
    height = HEAD + math.ceil(len(operations) / COLUMNS) * (HEIGHT + MARGIN) + MARGIN
    print(f'<svg xmlns="http://www.w3.org/2000/svg" width="{width}" height="{height}" font-family="sans-serif" font-size="10">')
    print('<rect width="100%" height="100%" fill="white"/>')
    print(*drawing(operations), sep="\n")
    print("</svg>")


main()
