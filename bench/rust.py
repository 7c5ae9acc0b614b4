#!/usr/bin/env python3
"""rust.py LIBRARY: times the package for Rust beside its peers, and prints two tables.

LIBRARY is the static library for C as the kit builds it. All is compiled by rustc at -O3 for x86-64-v2, the package also
without its tests of conditions. The two builds take turns, eight times, and the best time of each row counts."""
import pathlib
import re
import shutil
import subprocess
import sys

HERE = pathlib.Path(__file__).resolve().parent
OUT = HERE / "out/rust"
REGISTRY = pathlib.Path("/usr/share/cargo/registry")
WORDS = ["-C", "opt-level=3", "-C", "target-cpu=x86-64-v2", "-C", "codegen-units=1", "-C", "panic=abort", "--cap-lints", "allow"]
FEATURES = ["--cfg", 'feature="std"', "--cfg", 'feature="alloc"']
TURNS = 8


def rustc(source, name, folder, kind, *words):
    subprocess.run(["rustc", "--crate-name", name, "--crate-type", kind, "--out-dir", folder, *WORDS, *words, source], check=True)


def build(library, registry):
    """The program twice, beside a package that tests conditions and one that doesn't."""
    subprocess.run([HERE.parent / "tools/rust", OUT / "tested"], check=True)
    shutil.rmtree(OUT / "untested", ignore_errors=True)
    shutil.copytree(OUT / "tested", OUT / "untested", ignore=shutil.ignore_patterns("target"))
    for path in (OUT / "untested/src/proved").rglob("*.rs"):
        path.write_text(re.sub(r"if !\((.*)\) \{(?=\n +crate::conditions::fails)", r"if false && !(\1) {", path.read_text()))
    for name, folder in (("fixedbitset", "fixedbitset"), ("bit_vec", "bit-vec")):
        rustc(next(registry.glob(f"{folder}-*")) / "src/lib.rs", name, OUT, "rlib", "--edition", "2018", "--cfg", 'feature="std"')
    for kind in ("tested", "untested"):
        folder = OUT / "built" / kind
        rustc(OUT / kind / "src/lib.rs", "fehimbary", folder, "rlib", "--edition", "2021", *FEATURES)
        rustc(HERE / "rust.rs", "times", folder, "bin", "--edition", "2021", "--extern", f"fehimbary={folder}/libfehimbary.rlib",
              "--extern", f"fixedbitset={OUT}/libfixedbitset.rlib", "--extern", f"bit_vec={OUT}/libbit_vec.rlib",
              "-C", f"link-arg={pathlib.Path(library).resolve()}")


def times():
    """The best time of each row, by the bits, the operation and who."""
    best = {}
    for _ in range(TURNS):
        for kind in ("tested", "untested"):
            for line in subprocess.run([OUT / "built" / kind / "times"], check=True, stdout=subprocess.PIPE, text=True).stdout.splitlines():
                bits, operation, who, taken = line.split("\t")
                key = int(bits), operation, "untested" if (kind, who) == ("untested", "fehimbary") else who
                best[key] = min(float(taken), best.get(key, float("inf")))
    return best


def shown(number):
    return f"{number:.3g}" if number < 1000 else f"{number:.0f}"


def main(library, registry=REGISTRY):
    build(library, pathlib.Path(registry))
    best = times()
    whos = ["kit", "fixedbitset", "bit-vec", "loop"]
    rows = list(dict.fromkeys((bits, operation) for bits, operation, _ in best))
    print("\n### The package for Rust, ns a call\n")
    print(f"| bits | operation | package | {' | '.join(whos)} | kit / package | untested / tested |\n|---|---|---|{'---|' * (len(whos) + 2)}")
    for bits, operation in rows:
        own = best[bits, operation, "fehimbary"]
        others = [best.get((bits, operation, who)) for who in whos]
        kit = f"{others[0] / own:.2f}" if others[0] else ""
        cells = [str(bits) if bits > 8 else "few", operation, shown(own)] + [shown(it) if it else "" for it in others]
        print(f"| {' | '.join(cells)} | {kit} | {best[bits, operation, 'untested'] / own:.2f} |")


main(*sys.argv[1:])
