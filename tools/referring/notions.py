"""The pages of the reference, as notions.toml has them, and which page a file has."""
import dataclasses
import pathlib
import tomllib

from library import Refused


@dataclasses.dataclass
class Notion:
    """A page."""

    name: str
    title: str
    about: str
    guide: str = ""
    first: str = ""
    places: dict = dataclasses.field(default_factory=dict)

    def rank(self, file):
        """How far from the first a file's calls stand."""
        order = self.first.split()
        return order.index(file) if file in order else len(order)


NOTIONS = [Notion(**it) for it in tomllib.loads(pathlib.Path(__file__).with_suffix(".toml").read_text())["page"]]
SETS = Notion("sets", "Sets of laws", "What a function names by `using`, as in `#[tactic(auto, using(bitvec::specs::Laws::found))]`.", "PROOFS.md")
WRONG = Notion("wrong-bodies", "Wrong bodies", "Faults put into bodies that still compile, and what refuses each.")
STD = Notion("std", "Words of std", "The words of Rattle's standard library that contracts here name, as the kit defines them.")
PLACES = {(crate, file): it for it in NOTIONS for crate, files in it.places.items() for file in files.split() or [""]}


def page_of(crate, file):
    """The page of a file, by its name without the ending; a file of a folder goes with the folder's name too."""
    for name in (file, file.split("/")[0], ""):
        if (crate, name) in PLACES:
            return PLACES[crate, name]
    raise Refused(f"tools/referring/notions.toml gives no page to the crate {crate}")
