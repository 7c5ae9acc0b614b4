"""The laws of types of a user's own, as the pages of the traits tell them: no call can test these."""

HEAD = "# Laws of a type of one's own"
BROKEN = "No call tests these laws. A type that breaks one may get wrong bits, changes beside a window, or a panic, and never reaches memory outside the elements."

# What a type has to keep that implements a trait, by the trait.
LAWS = {
    "BitOrder": "For each width, `at` gives each bit number below it at exactly one index, each time the same. `select`, `mask`, `first_one` and "
                "`last_one` answer what the bodies here would. [`check`](crate::order::check) tests an order at each width.",
    "WordOrder": "`at` gives for an index `i` the bit number `BITS - 1 - i` where `HIGH` holds, and else `i`.",
    "SliceOrder": "Each function answers and writes what its page says, bit by bit in the order that `at` gives, and changes nothing outside its window.",
    "FieldOrder": "Each function answers and writes what its page says, and changes nothing outside its window.",
    "BitStore": "`BITS` is 8, 16, 32, 64 or 128. Each element has a number below `2^BITS`, which `to_u128` gives and `from_u128` takes: that of `ZERO` is 0, "
                "that of `ALL` is `2^BITS - 1`. The other functions do to these numbers what the integers' operators do.",
    "CellsRead": "`len` stays as it is. `load` gives the element that was last stored at an index, and `load_word` what the body here would.",
    "Cells": "`store` replaces the element at an index and no other, and `store_word` those that the body here would.",
    "BitSliceIndex": "`fits` says whether a view of so many bits has the index, each time the same. `index` and `index_mut` give what stands there.",
    "Edit": "`edit` leaves the view in its place.",
}


def lines(trait):
    """The section of a trait's page; nothing for a trait with no law."""
    return ["///", f"/// {HEAD}", "///", f"/// {LAWS[trait]} {BROKEN}"] if trait in LAWS else []
