//! The operators `&`, `|`, `^` and `!`, of values and of references, and those that assign.

use crate::bits::Bits;
use crate::prelude::*;
use crate::proved::slice::operators::combine;
use crate::proved::words::BitOp;
use core::ops::{BitAnd, BitAndAssign, BitOr, BitOrAssign, BitXor, BitXorAssign, Index, Not};

/// `&=`, `|=` and `^=` with whatever shows bits of the same elements and order. Where that ends sooner, it is as if zeros followed.
macro_rules! assigning {
    ($([$($generic:tt)*] $kind:ty, $view:ident;)*) => {$(
        assigning!(@ [$($generic)*] $kind, $view, BitAndAssign, bitand_assign, And);
        assigning!(@ [$($generic)*] $kind, $view, BitOrAssign, bitor_assign, Or);
        assigning!(@ [$($generic)*] $kind, $view, BitXorAssign, bitxor_assign, Xor);
    )*};
    (@ [$($generic:tt)*] $kind:ty, $view:ident, $operator:ident, $method:ident, $op:ident) => {
        impl<$($generic)*, B: Bits<Store = T, Order = O>> $operator<B> for $kind {
            #[inline]
            fn $method(&mut self, other: B) {
                combine(&mut self.$view(), other.bits(), BitOp::$op);
            }
        }
    };
}

/// `&`, `|` and `^` of what owns its bits, which become the result, and of what doesn't, of which a sequence is made.
macro_rules! combining {
    ([$($generic:tt)*] $kind:ty, $made:ty, |$it:ident| $start:expr) => {
        combining!(@ [$($generic)*] $kind, $made, |$it| $start, BitAnd, bitand, BitAndAssign, bitand_assign);
        combining!(@ [$($generic)*] $kind, $made, |$it| $start, BitOr, bitor, BitOrAssign, bitor_assign);
        combining!(@ [$($generic)*] $kind, $made, |$it| $start, BitXor, bitxor, BitXorAssign, bitxor_assign);
    };
    (@ [$($generic:tt)*] $kind:ty, $made:ty, |$it:ident| $start:expr, $operator:ident, $method:ident, $assigning:ident, $assign:ident) => {
        impl<$($generic)*, B: Bits<Store = T, Order = O>> $operator<B> for $kind {
            type Output = $made;

            fn $method(self, other: B) -> $made {
                let $it = self;
                let mut made = $start;
                $assigning::$assign(&mut made, other);
                made
            }
        }
    };
}

/// `!` of what owns its bits or gives a copy of them.
macro_rules! inverting {
    ([$($generic:tt)*] $kind:ty, $made:ty, |$it:ident| $start:expr) => {
        impl<$($generic)*> Not for $kind {
            type Output = $made;

            fn not(self) -> $made {
                let $it = self;
                let mut made = $start;
                made.invert();
                made
            }
        }
    };
}

/// `!` of a borrow, which flips the bits and gives it back.
macro_rules! flipping {
    ([$($generic:tt)*] $kind:ty) => {
        impl<'s, $($generic)*> Not for &'s mut $kind {
            type Output = Self;

            fn not(self) -> Self {
                self.invert();
                self
            }
        }
    };
}

/// One bit by its index.
macro_rules! indexed {
    ([$($generic:tt)*] $kind:ty) => {
        impl<$($generic)*> Index<usize> for $kind {
            type Output = bool;

            #[inline]
            #[track_caller]
            fn index(&self, index: usize) -> &bool {
                if self.bits()[index] { &true } else { &false }
            }
        }
    };
}

assigning! {
    ['a, T: BitStore, O: SliceOrder] BitSliceMut<'a, T, O>, as_mut;
    [T: BitStore, O: SliceOrder, const N: usize] BitArray<T, O, N>, as_mut_bitslice;
}
combining!([T: BitStore, O: SliceOrder, const N: usize] BitArray<T, O, N>, BitArray<T, O, N>, |bits| bits);
combining!([T: BitStore, O: SliceOrder, const N: usize] &BitArray<T, O, N>, BitArray<T, O, N>, |bits| *bits);
inverting!([T: BitStore, O: SliceOrder, const N: usize] BitArray<T, O, N>, BitArray<T, O, N>, |bits| bits);
inverting!([T: BitStore, O: SliceOrder, const N: usize] &BitArray<T, O, N>, BitArray<T, O, N>, |bits| *bits);
flipping!(['a, T: BitStore, O: SliceOrder] BitSliceMut<'a, T, O>);
indexed!([T: BitStore, O: BitOrder, const N: usize] BitArray<T, O, N>);

#[cfg(feature = "alloc")]
mod owned {
    use super::*;
    use crate::memory::Allocator;

    macro_rules! with_bools {
        ($($operator:ident, $method:ident;)*) => {$(
            impl<T: BitStore, O: SliceOrder, A: Allocator, const N: usize> $operator<[bool; N]> for BitVec<T, O, A> {
                fn $method(&mut self, other: [bool; N]) {
                    $operator::$method(self, BitVec::<T, O>::from_bools(&other));
                }
            }
        )*};
    }

    with_bools! {
        BitAndAssign, bitand_assign;
        BitOrAssign, bitor_assign;
        BitXorAssign, bitxor_assign;
    }
    assigning! { [T: BitStore, O: SliceOrder, A: Allocator] BitVec<T, O, A>, as_mut_bitslice; }
    combining!([T: BitStore, O: SliceOrder, A: Allocator] BitVec<T, O, A>, BitVec<T, O, A>, |bits| bits);
    combining!([T: BitStore, O: SliceOrder, A: Allocator] &BitVec<T, O, A>, BitVec<T, O>, |bits| bits.to_bitvec());
    combining!([T: BitStore, O: SliceOrder] BitSlice<'_, T, O>, BitVec<T, O>, |bits| bits.to_bitvec());
    inverting!([T: BitStore, O: SliceOrder, A: Allocator] BitVec<T, O, A>, BitVec<T, O, A>, |bits| bits);
    inverting!([T: BitStore, O: SliceOrder, A: Allocator] &BitVec<T, O, A>, BitVec<T, O>, |bits| bits.to_bitvec());
    flipping!([T: BitStore, O: SliceOrder, A: Allocator] BitVec<T, O, A>);
    inverting!([T: BitStore, O: SliceOrder] BitSlice<'_, T, O>, BitVec<T, O>, |bits| bits.to_bitvec());
    indexed!([T: BitStore, O: BitOrder, A: Allocator] BitVec<T, O, A>);
}
