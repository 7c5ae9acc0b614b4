#!/usr/bin/env python3
"""edits.py [--goals | --witnesses] [CRATE | CRATE/NAME ..]: tries the must-fail edits, those of the gate and those of compile_fail/edits.

An edit is refused also where the prover merely can't follow a body of that shape. So each names the clauses that must refuse it, and has
a witness that it is wrong: a row, which is a test that fails where the edited body runs, or a control, a right body of the same shape,
which is proved (edit.py says how they are written). This fails where other clauses than the named ones refuse an edit, where a proof
does that names a step which the edit took away, where a row's test passes, or a control isn't proved.

Proofs are tried in a copy of the tree, which gets what `rt` built and proved here; what isn't built here is proved first. A crate is proved once as it
stands, and then with each edit. Rows run in the package for Rust, which `tools/rust` writes of the edited text, or as a test that `rt` runs with no
proof. With --goals or --witnesses only one half is done."""
import argparse
import collections
import sys

sys.dont_write_bytecode = True
import edit
import proving
import rows


def chosen(names):
    """The edits of these crates and names, or all, by their crates."""
    found = [it for it in edit.edits() if not names or it.crate in names or it.name in names]
    missed = {*names} - {it.crate for it in found} - {it.name for it in found}
    if missed:
        sys.exit(f"edits.py: no edit {min(missed)}")
    crates = collections.defaultdict(list)
    for it in found:
        crates[it.crate].append(it)
    return crates


def main(words):
    parser = argparse.ArgumentParser(prog="edits.py", description=__doc__.partition("\n")[0])
    half = parser.add_mutually_exclusive_group()
    half.add_argument("--goals", action="store_true", help="no witnesses")
    half.add_argument("--witnesses", action="store_true", help="only the witnesses")
    parser.add_argument("names", nargs="*", help="crates, or edits as CRATE/NAME")
    given = parser.parse_args(words)
    crates, wrong = chosen(given.names), 0
    if not given.goals:
        wrong += rows.tried([it for found in crates.values() for it in found])
    wrong += proving.tried(crates, goals=not given.witnesses, controls=not given.goals)
    return bool(wrong)


if __name__ == "__main__":
    sys.exit(main(sys.argv[1:]))
