//! Comparisons of what shows bits with anything that does, of any element types and orders, and hashes.

use crate::bits::Bits;
use crate::prelude::*;
use core::cmp::Ordering;
use core::hash::{Hash, Hasher};

/// A type's comparisons with whatever shows bits.
macro_rules! compared {
    ($([$($generic:tt)*] $kind:ty;)*) => {$(
        impl<$($generic)*, B: Bits> PartialEq<B> for $kind {
            #[inline]
            fn eq(&self, other: &B) -> bool {
                BitQueries::eq_bits(&self.bits(), other.bits())
            }
        }

        impl<$($generic)*, B: Bits> PartialOrd<B> for $kind {
            #[inline]
            fn partial_cmp(&self, other: &B) -> Option<Ordering> {
                Some(BitQueries::cmp_bits(&self.bits(), other.bits()))
            }
        }
    )*};
}

/// The order and the hash of a type that isn't a shared view, as those of one.
macro_rules! ordered {
    ($([$($generic:tt)*] $kind:ty;)*) => {$(
        impl<$($generic)*> Ord for $kind {
            fn cmp(&self, other: &Self) -> Ordering {
                self.bits().cmp(&other.bits())
            }
        }

        impl<$($generic)*> Hash for $kind {
            fn hash<H: Hasher>(&self, state: &mut H) {
                self.bits().hash(state);
            }
        }
    )*};
}

/// Comparisons of references to a type with a value.
macro_rules! by_reference {
    ($([$($generic:tt)*] $kind:ty = [$($more:tt)*] $other:ty;)*) => {$(
        impl<$($more)*, $($generic)*> PartialEq<$other> for &$kind {
            #[inline]
            fn eq(&self, other: &$other) -> bool {
                **self == *other
            }
        }

        impl<$($more)*, $($generic)*> PartialEq<$other> for &mut $kind {
            #[inline]
            fn eq(&self, other: &$other) -> bool {
                **self == *other
            }
        }
    )*};
}

compared! {
    ['a, T: BitStore, O: SliceOrder] BitSlice<'a, T, O>;
    ['a, T: BitStore, O: SliceOrder] BitSliceMut<'a, T, O>;
    [T: BitStore, O: SliceOrder, const N: usize] BitArray<T, O, N>;
}
#[cfg(feature = "alloc")]
compared! { [T: BitStore, O: SliceOrder, A: crate::memory::Allocator] BitVec<T, O, A>; }

ordered! {
    ['a, T: BitStore, O: SliceOrder] BitSliceMut<'a, T, O>;
    [T: BitStore, O: SliceOrder, const N: usize] BitArray<T, O, N>;
}
#[cfg(feature = "alloc")]
ordered! { [T: BitStore, O: SliceOrder, A: crate::memory::Allocator] BitVec<T, O, A>; }

by_reference! {
    [T: BitStore, O: SliceOrder] BitSlice<'_, T, O> = ['y, U: BitStore, P: BitOrder] BitSlice<'y, U, P>;
    [T: BitStore, O: SliceOrder] BitSlice<'_, T, O> = ['y, U: BitStore, P: BitOrder] BitSliceMut<'y, U, P>;
    [T: BitStore, O: SliceOrder] BitSliceMut<'_, T, O> = ['y, U: BitStore, P: BitOrder] BitSlice<'y, U, P>;
    [T: BitStore, O: SliceOrder] BitSliceMut<'_, T, O> = ['y, U: BitStore, P: BitOrder] BitSliceMut<'y, U, P>;
    [T: BitStore, O: SliceOrder, const N: usize] BitArray<T, O, N> = ['y, U: BitStore, P: BitOrder] BitSlice<'y, U, P>;
}
#[cfg(feature = "alloc")]
by_reference! {
    [T: BitStore, O: SliceOrder] BitSlice<'_, T, O> = [U: BitStore, P: BitOrder, B: crate::memory::Allocator] BitVec<U, P, B>;
    [T: BitStore, O: SliceOrder] BitSliceMut<'_, T, O> = [U: BitStore, P: BitOrder, B: crate::memory::Allocator] BitVec<U, P, B>;
    [T: BitStore, O: SliceOrder, A: crate::memory::Allocator] BitVec<T, O, A> = ['y, U: BitStore, P: BitOrder] BitSlice<'y, U, P>;
    [T: BitStore, O: SliceOrder, A: crate::memory::Allocator] BitVec<T, O, A> = ['y, U: BitStore, P: BitOrder] BitSliceMut<'y, U, P>;
    [T: BitStore, O: SliceOrder, A: crate::memory::Allocator] BitVec<T, O, A> = [U: BitStore, P: BitOrder, B: crate::memory::Allocator] BitVec<U, P, B>;
}

/// Comparisons with lists of truth values.
macro_rules! with_bools {
    ($([$($generic:tt)*] $list:ty;)*) => {$(
        impl<$($generic)* T: BitStore, O: BitOrder> PartialEq<$list> for BitSlice<'_, T, O> {
            fn eq(&self, other: &$list) -> bool {
                self.iter().by_vals().eq(other.iter().copied())
            }
        }

        #[cfg(feature = "alloc")]
        impl<$($generic)* T: BitStore, O: BitOrder, A: crate::memory::Allocator> PartialEq<$list> for BitVec<T, O, A> {
            fn eq(&self, other: &$list) -> bool {
                self.as_bitslice() == *other
            }
        }
    )*};
}

with_bools! {
    [const N: usize,] [bool; N];
    [] [bool];
}
