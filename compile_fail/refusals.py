"""What `rt check` says of a crate: whether it is proved, and which clause of which function isn't."""
import re

# `./proofs/part/fill_part/Answers.antt:7:6: error: `returns-clause-writes`: ..`, and `note: src/part.rt:40:1: it is not proved that .. (`returns`)`
IN_A_PROOF = re.compile(r"(?:\./)?proofs/(.+)\.antt:\d+:\d+: error: (?:`([^`]*)`: )?(.*)")
IN_A_BODY = re.compile(r"(?:note: )?(?:\./)?src/.*:\d+:\d+: it is not proved .*?\(`([^`]*)`\)")
# a law that an impl has to show
LAW = re.compile(r"impl \w+::(\S+): not proved; antt refuses `([^`]*)`")
FUNCTION = re.compile(r"(?:fn|impl|trait|struct|enum) (\w+)::(\S+): (no proof|not proved)")
# what follows from what is told elsewhere
WAITS = ("; it waits for the proof of", "it calls `")
# A proof that names a step which the edit took away: it says nothing of a contract.
NAMES = re.compile(r"has no field|is not in scope|has no `|was not admitted|is no name")


def clause(goal):
    """The clause that a goal shows: `returns-then-len-BITS-clause-writes` shows `writes`, and `returns-then-self-bits` `returns`."""
    return re.sub(r"-(then-|else-|in[-_]).*", "", goal.rpartition("-clause-")[2])


def is_proved(said):
    return bool(re.search(r"^logic=proved", said, re.M))


def is_refused(said):
    return bool(re.search(r"^logic=not-proved", said, re.M))


def refusals(said):
    """The clauses that aren't proved, each with its function, and those of which only a proof that names a lost step says so."""
    found, lost, noted = set(), set(), []
    for line in said.splitlines():
        if at := IN_A_PROOF.match(line):
            pair = at[1].removesuffix("/Answers").replace("/", "::"), clause(at[2] or "")
            (lost if NAMES.search(at[3]) else found).add(pair)
        elif at := IN_A_BODY.match(line):
            noted.append(clause(at[1]))
        elif at := LAW.match(line):
            found.add((at[1], clause(at[2])))
        elif at := FUNCTION.match(line):
            if not any(words in line for words in WAITS):
                found |= {(at[2], goal) for goal in noted}
                noted = []
    return found, lost - found
