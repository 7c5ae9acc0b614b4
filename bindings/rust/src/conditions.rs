//! What a caller has to see to, tested when a call begins.

use crate::proved::base::{BitOrder, Window, MAX_BITS};
use crate::proved::cells::CellsRead;
use crate::proved::closures::EditParts;
use crate::proved::slice::{Sealed, View};
use crate::proved::store::BitStore;
use core::fmt;
use core::marker::PhantomData;

/// The conditions of a call are met: only the library can make this value, so only it calls what takes one.
///
/// ```compile_fail
/// use fehimbary::prelude::*;
///
/// // No path leads to `Met`, and nothing else stands in its place.
/// 48u64.view_bits::<Lsb0>().into_part(0..48).load_le_proved::<u8>(());
/// ```
///
/// What no type brings anew stands in private traits.
///
/// ```compile_fail
/// use fehimbary::prelude::*;
///
/// let mut bytes = [0u8; 6];
/// bytes.view_bits_mut::<Lsb0>().part_mut(2..4).narrow(0..6);
/// ```
#[derive(Clone, Copy)]
pub struct Met;

/// Panics, at the caller's place, with the condition that fails and with the values that it is of.
#[cold]
#[inline(never)]
#[track_caller]
pub(crate) fn fails(call: &str, condition: &str, values: &[(&str, &dyn fmt::Debug)]) -> ! {
    panic!("{call} needs that {condition}{}", Values(values))
}

struct Values<'a>(&'a [(&'a str, &'a dyn fmt::Debug)]);

impl fmt::Display for Values<'_> {
    fn fmt(&self, f: &mut fmt::Formatter<'_>) -> fmt::Result {
        for (number, (name, value)) in self.0.iter().enumerate() {
            let joint = if number == 0 { ":" } else { "," };
            write!(f, "{joint} {name} is {value:?}")?;
        }
        Ok(())
    }
}

/// Whether so many elements of `bits` bits have at most `MAX_BITS`, and the window lies in them.
#[inline(always)]
pub(crate) fn has_window(bits: usize, count: usize, window: Window) -> bool {
    count <= MAX_BITS / bits && window.start <= bits * count && window.len <= bits * count - window.start
}

/// Whether so many elements of `bits` bits have at most `MAX_BITS`, and the range lies in them.
#[inline(always)]
pub(crate) fn has_bits(bits: usize, count: usize, from: usize, to: usize) -> bool {
    count <= MAX_BITS / bits && from <= to && to <= bits * count
}

/// Whether so many elements of `bits` bits have at most `MAX_BITS`, and the index is that of one of these.
#[inline(always)]
pub(crate) fn has_bit(bits: usize, count: usize, index: usize) -> bool {
    count <= MAX_BITS / bits && index < bits * count
}

/// Whether the range lies in a list of `len`, and as much from `dest` on.
#[inline(always)]
pub(crate) fn fits_within(from: usize, to: usize, dest: usize, len: usize) -> bool {
    from <= to && to <= len && dest <= len && to - from <= len - dest
}

/// A number with room for a sum or a product.
#[inline(always)]
pub(crate) fn wide(number: usize) -> u128 {
    number as u128
}

/// Whether a number has at most so many bits.
#[inline(always)]
pub(crate) fn fits_width(number: u128, bits: usize) -> bool {
    bits >= 128 || number >> bits == 0
}

/// Whether a window is all of so many elements of `bits` bits.
#[inline(always)]
pub(crate) fn covers(window: Window, count: usize, bits: usize) -> bool {
    window.start == 0 && window.len == bits * count
}

/// Whether an accessor has an element at an index, by one load more.
#[inline(always)]
pub(crate) fn has_element<C: CellsRead>(cells: &mut C, index: usize, element: C::Elem) -> bool {
    cells.load(index).to_u128() == element.to_u128()
}

/// Where a view stands: its elements, and its window among them.
fn place<T: BitStore, O: BitOrder, V: View<T, O>>(view: &V) -> (*const [T], Window) {
    let bits = view.as_bitslice();
    let elements: *const [T] = bits.elements();
    (elements, bits.window())
}

/// A view while a closure edits it: where the closure ends by a panic, it stands among the same elements as before.
struct Edited<'v, T: BitStore, O: BitOrder, V: EditParts<T, O>> {
    view: &'v mut V,
    elements: *const [T],
    whole: Option<Window>,
    order: PhantomData<O>,
}

impl<T: BitStore, O: BitOrder, V: EditParts<T, O>> Drop for Edited<'_, T, O, V> {
    #[inline]
    fn drop(&mut self) {
        if let Some(whole) = self.whole {
            if core::ptr::eq(place(self.view).0, self.elements) {
                self.view.stand_at(whole, Sealed);
            }
        }
    }
}

/// Calls a closure on a view, and panics where the closure puts another view, or a part of it, in the place of the one that it was
/// given. If the call ends by a panic, the view has the window `whole` afterwards, if one is given.
#[inline(always)]
#[track_caller]
pub(crate) fn edited<T, O, V, F, R>(view: &mut V, whole: Option<Window>, edit: F) -> R
where
    T: BitStore,
    O: BitOrder,
    V: EditParts<T, O>,
    F: FnOnce(&mut V) -> R,
{
    let before = place(view);
    let mut during = Edited { view, elements: before.0, whole, order: PhantomData };
    let result = edit(during.view);
    if place(during.view) != before {
        fails("an edit", "its closure leaves the view in its place", &[]);
    }
    during.whole = None;
    result
}
