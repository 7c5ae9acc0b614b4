//! Walks over bits that load each element once, and edits that store it once.

use crate::conditions::Met;
use crate::prelude::{BitOrder, BitSlice, BitStore};
use crate::proved::base::Window;
use core::ops::Range;

/// Whether an element has its bit at an index.
#[inline(always)]
fn has<T: BitStore, O: BitOrder>(element: T, index: usize) -> bool {
    element.and(O::select_proved::<T>(index, Met)).to_u128() != 0
}

/// The first bits of a range, up to the end of the element in which they stand: the element, and at which of its indices.
#[inline(always)]
fn front<T: BitStore, O: BitOrder>(view: BitSlice<'_, T, O>, range: &Range<usize>) -> (T, Range<usize>) {
    let bits = T::BITS as usize;
    let place = view.window().start + range.start;
    let from = place % bits;
    (view.elements()[place / bits], from..bits.min(from + range.len()))
}

/// A range cut at edges of elements: how many bits stand before the first one, and which elements are whole.
#[inline(always)]
fn cut<T: BitStore, O: BitOrder>(view: BitSlice<'_, T, O>, range: &Range<usize>) -> (usize, Range<usize>) {
    let bits = T::BITS as usize;
    let start = view.window().start + range.start;
    let head = (start.wrapping_neg() % bits).min(range.len());
    let first = (start + head) / bits;
    (head, first..first + (range.len() - head) / bits)
}

/// What `f` makes of the bits of a range, from the first to the last.
#[inline]
pub(crate) fn fold<T: BitStore, O: BitOrder, A>(view: BitSlice<'_, T, O>, range: Range<usize>, first: A, mut f: impl FnMut(A, bool) -> A) -> A {
    let (head, whole) = cut(view, &range);
    let tail = range.start + head + whole.len() * T::BITS as usize;
    let mut folded = fold_front(view, range.start..range.start + head, first, &mut f);
    for &element in &view.elements()[whole] {
        folded = (0..T::BITS as usize).fold(folded, |folded, index| f(folded, has::<T, O>(element, index)));
    }
    fold_front(view, tail..range.end, folded, &mut f)
}

/// [`fold`] of a range that lies in one element.
#[inline(always)]
fn fold_front<T: BitStore, O: BitOrder, A>(view: BitSlice<'_, T, O>, range: Range<usize>, first: A, f: &mut impl FnMut(A, bool) -> A) -> A {
    if range.is_empty() {
        return first;
    }
    let (element, indices) = front(view, &range);
    indices.fold(first, |folded, index| f(folded, has::<T, O>(element, index)))
}

/// What `f` makes of the bits of a range, from the last to the first.
#[inline]
pub(crate) fn rfold<T: BitStore, O: BitOrder, A>(view: BitSlice<'_, T, O>, range: Range<usize>, first: A, mut f: impl FnMut(A, bool) -> A) -> A {
    let (head, whole) = cut(view, &range);
    let tail = range.start + head + whole.len() * T::BITS as usize;
    let mut folded = rfold_front(view, tail..range.end, first, &mut f);
    for &element in view.elements()[whole].iter().rev() {
        folded = (0..T::BITS as usize).rfold(folded, |folded, index| f(folded, has::<T, O>(element, index)));
    }
    rfold_front(view, range.start..range.start + head, folded, &mut f)
}

/// [`rfold`] of a range that lies in one element.
#[inline(always)]
fn rfold_front<T: BitStore, O: BitOrder, A>(view: BitSlice<'_, T, O>, range: Range<usize>, first: A, f: &mut impl FnMut(A, bool) -> A) -> A {
    if range.is_empty() {
        return first;
    }
    let (element, indices) = front(view, &range);
    indices.rfold(first, |folded, index| f(folded, has::<T, O>(element, index)))
}

/// The index of the first bit of a range for which a test holds, and the bit. The range loses each bit before the test is asked
/// for it, so that it is right also where the test panics.
#[inline]
pub(crate) fn find<T: BitStore, O: BitOrder>(view: BitSlice<'_, T, O>, range: &mut Range<usize>, mut holds: impl FnMut(bool) -> bool) -> Option<(usize, bool)> {
    while range.start < range.end {
        let (element, indices) = front(view, range);
        for index in indices {
            range.start += 1;
            let bit = has::<T, O>(element, index);
            if holds(bit) {
                return Some((range.start - 1, bit));
            }
        }
    }
    None
}

/// An element that is changed bit by bit. It is stored when this ends, also where a closure panics.
struct Held<'e, T: BitStore> {
    place: &'e mut T,
    element: T,
}

impl<T: BitStore> Held<'_, T> {
    /// Makes each of some bits what `f` answers for its index in the window, which `from` is for the first, and the bit.
    #[inline(always)]
    fn refill<O: BitOrder>(&mut self, indices: Range<usize>, from: usize, f: &mut impl FnMut(usize, bool) -> bool) {
        for (index, step) in indices.zip(from..) {
            let bit = O::select_proved::<T>(index, Met);
            let old = self.element.and(bit).to_u128() != 0;
            if f(step, old) != old {
                self.element = self.element.xor(bit);
            }
        }
    }
}

impl<T: BitStore> Drop for Held<'_, T> {
    #[inline]
    fn drop(&mut self) {
        *self.place = self.element;
    }
}

/// Makes each bit of a window what `f` answers for its index and the bit, in order.
#[inline]
pub(crate) fn refill<T: BitStore, O: BitOrder>(elements: &mut [T], window: Window, mut f: impl FnMut(usize, bool) -> bool) {
    let bits = T::BITS as usize;
    let mut step = 0;
    while step < window.len {
        let place = window.start + step;
        let indices = place % bits..bits.min(place % bits + (window.len - step));
        let element = &mut elements[place / bits];
        let mut held = Held { element: *element, place: element };
        let count = indices.len();
        if count == bits {
            held.refill::<O>(0..bits, step, &mut f);
        } else {
            held.refill::<O>(indices, step, &mut f);
        }
        step += count;
    }
}

/// The methods of `Iterator` that take all bits, or seek one, for a walk that has a view and the range of indices that are left.
macro_rules! forward {
    ($item:ty, [$($view:tt)*], [$($left:tt)*], |$bit:ident| $made:expr) => {
        #[inline]
        fn fold<Folded, F: FnMut(Folded, $item) -> Folded>(self, first: Folded, mut f: F) -> Folded {
            $crate::by_elements::fold(self.$($view)*, self.$($left)*.clone(), first, |folded, $bit| f(folded, $made))
        }

        #[inline]
        fn count(self) -> usize {
            self.$($left)*.len()
        }

        #[inline]
        fn last(mut self) -> Option<$item> {
            self.next_back()
        }

        #[inline]
        fn all<F: FnMut($item) -> bool>(&mut self, mut f: F) -> bool {
            $crate::by_elements::find(self.$($view)*, &mut self.$($left)*, |$bit| !f($made)).is_none()
        }

        #[inline]
        fn any<F: FnMut($item) -> bool>(&mut self, mut f: F) -> bool {
            $crate::by_elements::find(self.$($view)*, &mut self.$($left)*, |$bit| f($made)).is_some()
        }

        #[inline]
        fn find<F: FnMut(&$item) -> bool>(&mut self, mut f: F) -> Option<$item> {
            let (_, $bit) = $crate::by_elements::find(self.$($view)*, &mut self.$($left)*, |$bit| f(&$made))?;
            Some($made)
        }

        #[inline]
        fn position<F: FnMut($item) -> bool>(&mut self, mut f: F) -> Option<usize> {
            let first = self.$($left)*.start;
            let (index, _) = $crate::by_elements::find(self.$($view)*, &mut self.$($left)*, |$bit| f($made))?;
            Some(index - first)
        }
    };
}

/// The method of `DoubleEndedIterator` that takes all bits.
macro_rules! backward {
    ($item:ty, [$($view:tt)*], [$($left:tt)*], |$bit:ident| $made:expr) => {
        #[inline]
        fn rfold<Folded, F: FnMut(Folded, $item) -> Folded>(self, first: Folded, mut f: F) -> Folded {
            $crate::by_elements::rfold(self.$($view)*, self.$($left)*.clone(), first, |folded, $bit| f(folded, $made))
        }
    };
}

/// The method that passes bits, from either end.
macro_rules! passing {
    ($nth:ident, $item:ty, [$($view:tt)*], [$($left:tt)*], |$bit:ident| $made:expr) => {
        #[inline]
        fn $nth(&mut self, skipped: usize) -> Option<$item> {
            let $bit = self.$($left)*.$nth(skipped).map(|index| self.$($view)*[index])?;
            Some($made)
        }
    };
}

pub(crate) use {backward, forward, passing};
