//! Conversions between views, sequences, arrays and elements.

use crate::prelude::*;

/// What is made of a value by an expression.
macro_rules! from {
    ($($(#[$doc:meta])* [$($generic:tt)*] $from:ty => $made:ty, |$it:ident| $expression:expr;)*) => {$(
        $(#[$doc])*
        impl<$($generic)*> From<$from> for $made {
            #[inline]
            #[track_caller]
            fn from($it: $from) -> Self {
                $expression
            }
        }
    )*};
}

from! {
    [T: BitStore, O: BitOrder, const N: usize] [T; N] => BitArray<T, O, N>, |elements| BitArray::new(elements);
    ['a, T: BitStore, O: BitOrder, const N: usize] &'a [T; N] => BitSlice<'a, T, O>, |elements| BitSlice::from_slice(elements);
    ['a, T: BitStore, O: BitOrder, const N: usize] &'a mut [T; N] => BitSliceMut<'a, T, O>, |elements| BitSliceMut::from_slice_mut(elements);
    ['a, T: BitStore, O: BitOrder, const N: usize] &'a BitArray<T, O, N> => BitSlice<'a, T, O>, |bits| bits.as_bitslice();
    ['a, T: BitStore, O: BitOrder] BitSliceMut<'a, T, O> => BitSlice<'a, T, O>, |bits| {
        let window = bits.window();
        BitSlice::from_parts(bits.into_elements(), window.start, window.len)
    };
}

impl<T: BitStore, O: BitOrder, const N: usize> Default for BitArray<T, O, N> {
    fn default() -> Self {
        BitArray::ZERO
    }
}

/// A view has not as many bits as the array.
#[derive(Clone, Copy, Debug, PartialEq, Eq)]
pub struct TryFromBitSliceError;

/// The same bits; the error where they aren't as many as the array has.
impl<T: BitStore, O: SliceOrder, const N: usize> TryFrom<BitSlice<'_, T, O>> for BitArray<T, O, N> {
    type Error = TryFromBitSliceError;

    fn try_from(bits: BitSlice<'_, T, O>) -> Result<Self, TryFromBitSliceError> {
        let mut made = BitArray::ZERO;
        if made.len() != bits.len() {
            return Err(TryFromBitSliceError);
        }
        made.copy_from_bitslice(bits);
        Ok(made)
    }
}

impl<T: BitStore, O: BitOrder, const N: usize> AsRef<[T]> for BitArray<T, O, N> {
    fn as_ref(&self) -> &[T] {
        self.as_raw_slice()
    }
}

#[cfg(feature = "alloc")]
mod owned {
    use super::*;
    use crate::memory::Allocator;
    use alloc::boxed::Box;
    use alloc::vec::Vec;

    from! {
        /// It takes the memory, and panics where the bits are more than `MAX_BITS`.
        [T: BitStore, O: BitOrder] Vec<T> => BitVec<T, O>, |elements| BitVec::from_vec(elements);
        /// It takes the memory, and panics where the bits are more than `MAX_BITS`.
        [T: BitStore, O: BitOrder] Box<[T]> => BitVec<T, O>, |elements| BitVec::from_vec(elements.into_vec());
        [T: BitStore, O: BitOrder, const N: usize] [T; N] => BitVec<T, O>, |elements| BitVec::from_slice(&elements);
        [T: BitStore, O: BitOrder, const N: usize] BitArray<T, O, N> => BitVec<T, O>, |bits| BitVec::from_slice(bits.as_raw_slice());
        [T: BitStore, O: SliceOrder] BitSlice<'_, T, O> => BitVec<T, O>, |bits| bits.to_bitvec();
        [T: BitStore, O: SliceOrder] BitSliceMut<'_, T, O> => BitVec<T, O>, |bits| bits.to_bitvec();
        [T: BitStore, O: BitOrder, A: Allocator] BitVec<T, O, A> => Vec<T>, |bits| bits.into_elements().into_std();
        ['a, T: BitStore, O: BitOrder, A: Allocator] &'a BitVec<T, O, A> => BitSlice<'a, T, O>, |bits| bits.as_bitslice();
    }

    impl<T: BitStore, O: BitOrder> Default for BitVec<T, O> {
        fn default() -> Self {
            BitVec::new()
        }
    }

    /// The array of as many bits; the sequence itself where it has more or fewer.
    impl<T: BitStore, O: SliceOrder, A: Allocator, const N: usize> TryFrom<BitVec<T, O, A>> for BitArray<T, O, N> {
        type Error = BitVec<T, O, A>;

        fn try_from(bits: BitVec<T, O, A>) -> Result<Self, BitVec<T, O, A>> {
            BitArray::try_from(bits.as_bitslice()).map_err(|_| bits)
        }
    }

    impl<T: BitStore, O: BitOrder, A: Allocator> AsRef<[T]> for BitVec<T, O, A> {
        fn as_ref(&self) -> &[T] {
            self.as_raw_slice()
        }
    }
}
