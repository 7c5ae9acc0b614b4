//! Parts of views, sequences and arrays: what `bitvec` has as `bits[range]`.

use crate::domain::{domain_mut_of, DomainMut};
use crate::prelude::*;
use crate::proved::slice::bit_domain::bit_domain_mut_of;
use core::ops::RangeBounds;

impl<'a, T: BitStore, O: BitOrder> BitSlice<'a, T, O> {
    /// The bits of a range: `&bits[range]` of `bitvec`.
    ///
    /// # Panics
    ///
    /// It panics where the range begins behind its end or ends behind the bits.
    #[inline]
    #[track_caller]
    pub fn part(self, range: impl RangeBounds<usize>) -> BitSlice<'a, T, O> {
        self.into_part(range)
    }
}

impl<'a, T: BitStore, O: BitOrder> BitSliceMut<'a, T, O> {
    /// Two views of the bits before an index and from it on, where they share no element.
    #[track_caller]
    pub(crate) fn into_apart(self, mid: usize) -> Option<(Self, Self)> {
        if mid > self.len() {
            crate::conditions::fails("split_apart_mut", "mid <= len", &[("mid", &mid), ("len", &self.len())]);
        }
        self.into_sides(mid)
    }

    /// The elements that the view touches, for writing.
    pub(crate) fn into_domain_mut(self) -> DomainMut<'a, T, O> {
        let window = self.window();
        domain_mut_of(self.into_elements(), window)
    }

    /// The view, cut at the edges of elements.
    pub(crate) fn into_bit_domain_mut(self) -> BitDomainMut<'a, T, O> {
        let window = self.window();
        bit_domain_mut_of(self.into_elements(), window)
    }
}

macro_rules! parts {
    ([$($generic:tt)*] $kind:ty) => {
        impl<$($generic)*> $kind {
            /// The bits of a range: `&bits[range]` of `bitvec`.
            ///
            /// # Panics
            ///
            /// It panics where the range begins behind its end or ends behind the bits.
            #[inline]
            #[track_caller]
            pub fn part(&self, range: impl RangeBounds<usize>) -> BitSlice<'_, T, O> {
                crate::bits::Bits::bits(self).into_part(range)
            }
        }
    };
}

parts!(['a, T: BitStore, O: BitOrder] BitSliceMut<'a, T, O>);
parts!([T: BitStore, O: BitOrder, const N: usize] BitArray<T, O, N>);
#[cfg(feature = "alloc")]
parts!([T: BitStore, O: BitOrder, A: crate::memory::Allocator] BitVec<T, O, A>);
