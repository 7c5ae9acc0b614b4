"""What the documents of a call tell a user of Rust: when it panics, in the words of the table of conditions, and then its contract,
folded."""
import re

# What a condition has that is said in code.
CODE = re.compile(r"[\w.()+*/ -]+(?:(?:<=|<|==)[\w.()+*/ -]+)+")


def lines(item, contract):
    """The sections of a call's documents, of its conditions and of the lines of its contract."""
    return panics(getattr(item, "panics", [])) + folded(contract)


def panics(conditions):
    """The section of the conditions that the call tests."""
    if not conditions:
        return []
    said = [f"`{words}`" if CODE.fullmatch(words) else words for words in dict.fromkeys(conditions)]
    if len(said) == 1:
        return ["///", "/// # Panics", "///", f"/// It panics unless {said[0]}."]
    return ["///", "/// # Panics", "///", "/// It panics unless each of these holds:", "///", *[f"/// - {words}" for words in said]]


def folded(contract):
    """A contract, whose lines a reader opens."""
    if not contract:
        return []
    shown = [re.sub(r"^/// # (\w+)$", r"/// \1:", line) for line in contract]
    return ["///", "/// # Contract", "///", "/// <details><summary>What is proved of the call</summary>", *shown, "///", "/// </details>"]
