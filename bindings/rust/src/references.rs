//! References to one bit, which are written as `*bit = true`.

use crate::prelude::*;
use crate::proved::domain::BitPlace;
use core::fmt;
use core::ops::{Deref, DerefMut};

/// One bit of a memory that is borrowed for writing: `BitRef<Mut, T, O>` of `bitvec`.
///
/// What is written by `*bit = ..` comes into the memory when the reference is dropped, what is written by
/// [`set`](BitRefMut::set), [`replace`](BitRefMut::replace) and [`commit`](BitRefMut::commit) at once.
///
/// ```
/// use fehimbary::prelude::*;
///
/// let mut bits = bitvec![u8, Msb0; 0; 8];
/// *bits.get_mut(1).unwrap() = true;
/// assert_eq!(bits.as_raw_slice(), [0b0100_0000]);
/// ```
pub struct BitRefMut<'a, T: BitStore, O: BitOrder> {
    place: BitPlace<'a, T, O>,
    bit: bool,
}

impl<'a, T: BitStore, O: BitOrder> BitRefMut<'a, T, O> {
    #[inline]
    pub(crate) fn new(elements: &'a mut [T], place: usize) -> Self {
        let place = BitPlace::new(elements, place);
        let bit = *place;
        BitRefMut { place, bit }
    }
}

/// One bit among pieces of one memory, for writing: what is written by `*bit = ..` comes into the memory when it is dropped.
pub struct BitCell<'a, T: BitStore, O: BitOrder> {
    place: BitCells<'a, T, O>,
    bit: bool,
}

impl<'a, T: BitStore, O: BitOrder> BitCell<'a, T, O> {
    /// The bit of a piece at an index, which is there.
    #[inline]
    pub(crate) fn new(piece: &BitCells<'a, T, O>, index: usize) -> Self {
        let place = piece.cut(index..index + 1);
        let bit = place[0];
        BitCell { place, bit }
    }
}

impl<T: BitStore, O: BitOrder> fmt::Debug for BitCell<'_, T, O> {
    fn fmt(&self, f: &mut fmt::Formatter<'_>) -> fmt::Result {
        self.bit.fmt(f)
    }
}

/// What a reference does to its bit.
macro_rules! written {
    ($kind:ident, |$place:ident, $bit:ident| $write:expr) => {
        impl<'a, T: BitStore, O: BitOrder> $kind<'a, T, O> {
            /// Sets or clears the bit at once.
            #[inline]
            pub fn set(&mut self, $bit: bool) {
                self.bit = $bit;
                let $place = &mut self.place;
                $write;
            }

            /// Sets or clears the bit at once, and gives the old one.
            #[inline]
            pub fn replace(&mut self, bit: bool) -> bool {
                let old = self.bit;
                self.set(bit);
                old
            }

            /// Sets or clears the bit, and ends the reference.
            #[inline]
            pub fn commit(mut self, bit: bool) {
                self.bit = bit;
            }
        }

        impl<T: BitStore, O: BitOrder> Deref for $kind<'_, T, O> {
            type Target = bool;

            #[inline]
            fn deref(&self) -> &bool {
                &self.bit
            }
        }

        impl<T: BitStore, O: BitOrder> DerefMut for $kind<'_, T, O> {
            #[inline]
            fn deref_mut(&mut self) -> &mut bool {
                &mut self.bit
            }
        }

        impl<T: BitStore, O: BitOrder> Drop for $kind<'_, T, O> {
            #[inline]
            fn drop(&mut self) {
                self.set(self.bit);
            }
        }
    };
}

written!(BitRefMut, |place, bit| place.set(bit));
written!(BitCell, |place, bit| place.write(0, bit));

/// Comparisons of a reference with a bit, from both sides.
macro_rules! as_bool {
    ($($kind:ident)*) => {$(
        as_bool!(@ $kind<'_, T, O>, bool, |bit, other| **bit == *other);
        as_bool!(@ $kind<'_, T, O>, &bool, |bit, other| **bit == **other);
        as_bool!(@ bool, $kind<'_, T, O>, |bit, other| *bit == **other);

        impl<T: BitStore, O: BitOrder> core::ops::Not for $kind<'_, T, O> {
            type Output = bool;

            #[inline]
            fn not(self) -> bool {
                !*self
            }
        }
    )*};
    (@ $kind:ty, $other:ty, |$bit:ident, $with:ident| $equal:expr) => {
        impl<T: BitStore, O: BitOrder> PartialEq<$other> for $kind {
            #[inline]
            fn eq(&self, $with: &$other) -> bool {
                let $bit = self;
                $equal
            }
        }
    };
}

as_bool!(BitRef BitRefMut BitCell);

impl<T: BitStore, O: BitOrder> From<BitRef<'_, T, O>> for bool {
    fn from(bit: BitRef<'_, T, O>) -> bool {
        *bit
    }
}
