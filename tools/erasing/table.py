"""The table of conditions: what tests each clause of a public call when it runs.

A hole `?name` stands for a term. COUNTS says how many items a list has and TERMS what a number is, in Rust and in words.
CONDITIONS has for each form of a clause the tests, in Rust, `{name}` being the term of a hole as a `usize` or, in a comparison
that adds or multiplies, as a `u128`; `#name` is how many items the list of a hole has. NOTHING is what Rust has by itself."""

# The number of a list's items.
COUNTS = [
    ("map ?value ?list", "#list"),
    ("?cells.numbers ?list", "{list}.len()"),
    ("?list", "{list}.len()"),
]

# Numbers: the Rust of each, and how a message calls it.
TERMS = [
    ("max_bits", "crate::proved::base::MAX_BITS", "MAX_BITS"),
    ("BITS", "(Self::BITS as usize)", "BITS"),
    ("length (held self)", "self.len()", "len"),
    ("length (numbers self)", "self.len()", "len"),
    ("length (Self.numbers self)", "self.len()", "len"),
    ("bits_of ?layout", "{layout}.bits()", "{layout}.bits"),
    ("length (fields_of self)", "self.len()", "len"),
    ("length (fields_of ?layout)", "{layout}.len()", "{layout}.len"),
    ("length ?list", "#list", "{list}.len"),
    ("vec_len ?list", "#list", "{list}.len"),
    ("N", "N", "N"),
    ("(seen_mut (piece_of self)).window.len", "self.piece.len()", "len"),
    ("(seen self).window.len", "self.len()", "len"),
    ("(seen_mut self).window.len", "self.len()", "len"),
    ("(owned self).window.len", "self.len()", "len"),
    ("(seen ?view).window.len", "{view}.len()", "{view}.len"),
    ("(seen_mut ?view).window.len", "{view}.len()", "{view}.len"),
    ("(Self.shows self).window.len", "crate::proved::slice::View::window(self).len", "len"),
    ("(V.sees bits).window.len", "crate::proved::slice::Viewed::bit_len(&bits)", "len"),
    ("(V.Writable.sees bits).window.len", "crate::proved::slice::ViewedMut::bit_len(&bits)", "len"),
    ("len self", "self.len()", "len"),
    ("Self.len self", "self.len()", "len"),
    ("pieces self ?len", "self.count({len})", "count"),
]

# Forms of clauses: the test, and its words in a message.
CONDITIONS = [
    ("HasWindow ?b ?list ?window", "crate::conditions::has_window({b}, #list, {window})", "{window} lies in the elements, which have at most MAX_BITS bits"),
    ("HasBits ?b ?count ?index (?index + 1)", "crate::conditions::has_bit({b}, {count}, {index})", "the elements have the bit at {index}, and at most MAX_BITS"),
    ("HasBits ?b ?count 0 (?len + 1)", "crate::conditions::has_bit({b}, {count}, {len})", "the elements have {len} bits and one more, and at most MAX_BITS"),
    ("HasBits ?b ?count ?from ?to", "crate::conditions::has_bits({b}, {count}, {from}, {to})", "{from} <= {to} <= the bits of the elements, which are at most MAX_BITS"),
    ("HasRange ?range ?len", "{range}.start <= {range}.end && {range}.end <= {len}", "{range}.start <= {range}.end <= {len}"),
    ("HasPart ?b ?list ?part", "{part}.element < #list && {part}.from <= {part}.to && {part}.to <= {b}", "{part} is one of an element that is there"),
    ("HasSpan ?b ?left ?right ?to ?from", "crate::conditions::has_window({b}, #left, {to}) && crate::conditions::has_window({b}, #right, {from}) && {to}.len == {from}.len", "{to} and {from} lie in their elements and are as long"),
    ("HasPair ?b ?left ?to ?c ?right ?from", "crate::conditions::has_window({b}, #left, {to}) && crate::conditions::has_window({c}, #right, {from}) && {to}.len == {from}.len", "{to} and {from} lie in their elements and are as long"),
    ("HasShortWindow ?b ?list ?window", "crate::conditions::has_window({b}, #list, {window}) && 0 < {window}.len && {window}.len <= {b}", "{window} lies in the elements and has from 1 bit to the width"),
    ("FitsWithin ?from ?to ?dest ?len", "crate::conditions::fits_within({from}, {to}, {dest}, {len})", "{from} <= {to} <= {len}, and as many bits fit from {dest} on"),
    ("HasRoom ?b ?count ?from ?to ?dest", "crate::conditions::has_bits({b}, {count}, {from}, {to}) && crate::conditions::fits_within({from}, {to}, {dest}, {b} * {count})", "{from} <= {to} <= the bits of the elements, and as many fit from {dest} on"),
    ("IsTrue (list_all (λ field. nat_le field.0 ?most) ?row)", "{row}.iter().all(|field| field.0 <= {most})", "each width of {row} is at most {most}"),
    ("LieApart ?from ?to ?dest", "{to} <= {dest} || {to} - {from} <= {from} && {dest} <= {from} - ({to} - {from})", "the ranges lie apart"),
    ("IsRestOf ?rest ?len", "{rest}.front <= {rest}.back && {rest}.back <= {len}", "{rest}.front <= {rest}.back <= {len}"),
    ("CoversElements ?b ?view", "crate::conditions::covers(self.window(), self.elements.len(), T::BITS as usize)", "the view has all bits of its elements"),
    ("?index.fits ?at ?len", "crate::proved::slice::BitSliceIndex::fits(&{at}, {len})", "the view has the {at}"),
    ("fits self ?len", "<Self as {trait}>::fits(&self, {len})", "the view has the index"),
    ("IsTrue (lies self ?len)", "self.lies_in({len})", "the view has the index"),
    ("IsTrue (is_lent self) → ?len ≡ 1", "!self.has || {len} == 1", "the piece has one bit"),
    ("?a + ?b < 2 ^ 64", "({a}).checked_add({b}).is_some()", "{a} + {b} is a usize"),
    ("?number < 2 ^ ?bits", "crate::conditions::fits_width({number} as u128, {bits})", "{number} has at most {bits} bits"),
    ("?a.value ?element ≡ slice_index (?kind.numbers ?cells) ?at", "crate::conditions::has_element({cells}, {at}, {element})", "{element} is the element at {at}"),
    ("(walk_of self).front < (walk_of self).back", "!self.is_empty()", "a piece is left"),
    ("(bit_walk_of self).front < (bit_walk_of self).back", "!self.is_empty()", "a bit is left"),
    ("?a ≤ ?b", "{a} <= {b}", "{a} <= {b}"),
    ("?a < ?b", "{a} < {b}", "{a} < {b}"),
    ("?a ≡ ?b", "{a} == {b}", "{a} == {b}"),
]

# What Rust's own types and its borrow checker grant.
NOTHING = ("MayGoOnIn", "MayGoOn", "CallableBelow", "CallableOnBits", "always_mut")
# What a closure owes that edits a view, tested each time that it has been called: that the view stands where it did.
STAYS = ("MayEdit", "MayEditEach", "MayEditGiven")

# The value that only the library can make: it stands for conditions that are met.
MET = "crate::conditions::Met"
# Methods that call a method of their own trait with the same conditions, which tests them.
DELEGATED = {("BitField", "load"), ("BitFieldMut", "store"), ("EditElements", "edit_elements")}
# Hidden methods that test conditions, since public ones leave them that.
TESTED = {("EditElements", "into_view")}
