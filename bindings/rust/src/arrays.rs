//! Arrays of elements as constants.

use crate::index::MAX_BITS;
use crate::prelude::*;

impl<T: BitStore, O: BitOrder, const N: usize> BitArray<T, O, N> {
    /// The array of no 1.
    pub const ZERO: Self = BitArray::new([T::ZERO; N]);

    /// An array of all bits of the elements.
    ///
    /// # Panics
    ///
    /// It panics where they are more than `MAX_BITS`.
    #[inline]
    #[track_caller]
    pub const fn new(elements: [T; N]) -> Self {
        assert!(T::BITS as u128 * N as u128 <= MAX_BITS as u128, "new needs that T.BITS * N <= MAX_BITS");
        BitArray::of(elements)
    }

    /// A view of the bits: [`as_bitslice`](BitArray::as_bitslice).
    #[inline]
    pub fn as_slice(&self) -> BitSlice<'_, T, O> {
        self.as_bitslice()
    }

    /// A view of the bits, for writing: [`as_mut_bitslice`](BitArray::as_mut_bitslice).
    #[inline]
    pub fn as_mut_slice(&mut self) -> BitSliceMut<'_, T, O> {
        self.as_mut_bitslice()
    }
}
