"""Whether the clauses that an edit names refuse it, and whether its control is proved."""
import os
import shutil
import subprocess

import refusals
from tree import Tree


class Crate:
    """A crate in a copy of the tree, proved once as it stands."""

    def __init__(self, tree, name):
        self.tree, self.name, self.folder = tree, name, tree.folder / "crates" / name
        self.kept, self.proved = self.folder / "out/incremental", self.folder / "proved"
        tree.lay(f"crates/{name}/out/incremental")
        said = self.check()
        if not refusals.is_proved(said):
            raise SystemExit(f"{said}\nedits.py: {name} isn't proved as it stands")
        shutil.copytree(self.kept, self.proved, copy_function=os.link)

    def check(self):
        """What `rt check` says of the crate."""
        ran = subprocess.run(["rt", "check", "--jobs", "1"], cwd=self.folder, stdout=subprocess.PIPE, stderr=subprocess.STDOUT, universal_newlines=True)
        return ran.stdout

    def check_edited(self, edit, control=False):
        """What it says with an edit, over what was proved of the crate without it. `rt` replaces such a file, and changes none."""
        shutil.rmtree(self.kept, ignore_errors=True)
        shutil.copytree(self.proved, self.kept, copy_function=os.link)
        with self.tree.edited(edit, control):
            return self.check()


def named(pairs):
    return ", ".join(sorted(" ".join(pair) for pair in pairs)) or "nothing"


def fault_of_goals(edit, said):
    """What is wrong with how an edit is refused, if anything."""
    if refusals.is_proved(said):
        return "it is proved"
    if not refusals.is_refused(said):
        return f"no verdict:\n{said[-2000:]}"
    found, lost = refusals.refusals(said)
    if lost - edit.also:
        return f"a proof names a step that it took away, at {named(lost)}"
    if found - edit.also != edit.goals:
        return f"refused by {named(found - edit.also)}, and not by {named(edit.goals)}"


def fault_of_control(said):
    """What is wrong with a control, if anything."""
    if not refusals.is_proved(said):
        return f"its control isn't proved, for {named(refusals.refusals(said)[0])}"


def tried(crates, goals, controls):
    """Tries the edits of crates, and returns how many are wrong."""
    wrong = 0
    with Tree() as tree:
        for name, edits in crates.items():
            crate = None
            for edit in edits:
                tries = [(False, "goals")] * goals + [(True, "control")] * (controls and edit.has_control)
                for control, what in tries:
                    crate = crate or Crate(tree, name)
                    said = crate.check_edited(edit, control)
                    fault = fault_of_control(said) if control else fault_of_goals(edit, said)
                    print(f"{edit.name}: {what}: {fault or 'as it has to be'}", flush=True)
                    wrong += bool(fault)
    return wrong
