//! Iterators over what owns its bits, and what is made of iterators' items.

use crate::by_elements;
use crate::prelude::*;
use crate::walks::walks;
use core::fmt;
use core::iter::FusedIterator;
use core::ops::Range;

/// The bits of what ends with this, from both ends.
#[derive(Clone)]
pub struct Bools<B> {
    bits: B,
    left: Range<usize>,
}

macro_rules! walked {
    ([$($generic:tt)*] $kind:ty) => {
        impl<$($generic)*> IntoIterator for $kind {
            type Item = bool;
            type IntoIter = Bools<$kind>;

            fn into_iter(self) -> Bools<$kind> {
                let left = 0..self.len();
                Bools { bits: self, left }
            }
        }

        walks!(
            [$($generic)*] Bools<$kind>, bool, left, |walk, index| walk.bits.as_bitslice()[index],
            {by_elements::forward!(bool, [bits.as_bitslice()], [left], |bit| bit);}
            {by_elements::backward!(bool, [bits.as_bitslice()], [left], |bit| bit);}
        );

        impl<$($generic)*> fmt::Debug for Bools<$kind> {
            fn fmt(&self, f: &mut fmt::Formatter<'_>) -> fmt::Result {
                f.debug_tuple("Bools").field(&self.bits.as_bitslice().into_part(self.left.clone())).finish()
            }
        }
    };
}

walked!([T: BitStore, O: BitOrder, const N: usize] BitArray<T, O, N>);

macro_rules! referred {
    ($($view:ident)*) => {$(
        impl<'s, T: BitStore, O: BitOrder> IntoIterator for &'s $view<'_, T, O> {
            type Item = BitRef<'s, T, O>;
            type IntoIter = crate::slice::Iter<'s, T, O>;

            fn into_iter(self) -> crate::slice::Iter<'s, T, O> {
                self.iter()
            }
        }
    )*};
}

referred!(BitSlice BitSliceMut);

impl<T: BitStore, O: BitOrder> Clone for crate::slice::BitValIter<'_, T, O> {
    fn clone(&self) -> Self {
        self.bits.clone().by_vals()
    }
}

impl<T: BitStore, O: BitOrder> Clone for crate::slice::BitRefIter<'_, T, O> {
    fn clone(&self) -> Self {
        self.bits.clone().by_refs()
    }
}

impl<T: BitStore, O: BitOrder, P: FnMut(usize, &bool) -> bool, W: crate::slice::SplitKind> FusedIterator for crate::slice::Splits<'_, T, O, P, W> {}

impl<T: BitStore, O: BitOrder, P: FnMut(usize, &bool) -> bool, W: crate::slice::SplitKind> FusedIterator for crate::slice::SplitsN<'_, T, O, P, W> {}

impl<T: BitStore, O: BitOrder, P: Clone, W> Clone for crate::slice::Splits<'_, T, O, P, W> {
    fn clone(&self) -> Self {
        let crate::slice::Splits { rest, finished, pred, way } = self;
        crate::slice::Splits { rest: *rest, finished: *finished, pred: pred.clone(), way: *way }
    }
}

impl<T: BitStore, O: BitOrder, P: Clone, W> Clone for crate::slice::SplitsN<'_, T, O, P, W> {
    fn clone(&self) -> Self {
        let crate::slice::SplitsN { parts, count } = self;
        crate::slice::SplitsN { parts: parts.clone(), count: *count }
    }
}

#[cfg(feature = "alloc")]
mod owned {
    use super::*;
    use crate::memory::{granted, Allocator, Global, TryExtend};

    /// The bits of a sequence that ends with this, from both ends.
    pub type IntoIter<T, O, A = Global> = Bools<BitVec<T, O, A>>;

    walked!([T: BitStore, O: BitOrder, A: Allocator] BitVec<T, O, A>);

    /// What a sequence takes from an iterator. It panics where memory is refused; [`TryExtend`] answers that.
    macro_rules! taken {
        ([$($generic:tt)*] $item:ty, $order:ident, |$made:ident, $items:ident| $extend:expr) => {
            impl<$($generic)* T: BitStore, O: $order, A: Allocator> Extend<$item> for BitVec<T, O, A> {
                #[track_caller]
                fn extend<I: IntoIterator<Item = $item>>(&mut self, items: I) {
                    let ($made, $items) = (self, items.into_iter());
                    $extend
                }
            }

            impl<$($generic)* T: BitStore, O: $order> FromIterator<$item> for BitVec<T, O> {
                #[track_caller]
                fn from_iter<I: IntoIterator<Item = $item>>(items: I) -> Self {
                    let mut made = BitVec::new();
                    made.extend(items);
                    made
                }
            }
        };
    }

    taken!([] bool, BitOrder, |made, items| granted(made.try_extend(items)));
    taken!(['b,] &'b bool, BitOrder, |made, items| granted(made.try_extend(items.copied())));
    taken!(['b, U: BitStore, P: BitOrder,] BitRef<'b, U, P>, BitOrder, |made, items| granted(made.try_extend(items.map(|bit| *bit))));
    taken!([] T, BitOrder, |made, items| items.for_each(|element| made.extend_from_bitslice(BitSlice::<T, O>::from_element(&element))));
    taken!(['b,] &'b T, BitOrder, |made, items| items.for_each(|element| made.extend_from_bitslice(BitSlice::<T, O>::from_element(element))));

    /// The bits that a [`drain`](BitVec::drain) or a [`splice`](BitVec::splice) has taken out.
    #[derive(Debug)]
    pub struct Drain<'s, T: BitStore, O: BitOrder, A: Allocator = Global> {
        taken: IntoIter<T, O, A>,
        from: core::marker::PhantomData<&'s mut T>,
    }

    walks!([T: BitStore, O: BitOrder, A: Allocator] Drain<'_, T, O, A>, bool, taken.left, |walk, index| walk.taken.bits.as_bitslice()[index]);

    impl<T: BitStore, O: SliceOrder, A: Allocator + Clone> BitVec<T, O, A> {
        /// Takes out the bits of a range at once, and gives them.
        ///
        /// # Panics
        ///
        /// It panics where the range isn't one of the bits or memory is refused; [`try_drain`](BitVec::try_drain) answers the
        /// latter, with a sequence.
        #[track_caller]
        pub fn drain(&mut self, range: impl core::ops::RangeBounds<usize>) -> Drain<'_, T, O, A> {
            let range = crate::ranges::within(range, self.len());
            Drain { taken: granted(self.try_drain(range)).into_iter(), from: core::marker::PhantomData }
        }

        /// Puts an iterator's bits in the place of a range, at once, and gives the bits of the range.
        ///
        /// # Panics
        ///
        /// It panics where the range isn't one of the bits or memory is refused.
        #[track_caller]
        pub fn splice<I: IntoIterator<Item = bool>>(&mut self, range: impl core::ops::RangeBounds<usize>, bits: I) -> Drain<'_, T, O, A> {
            let range = crate::ranges::within(range, self.len());
            let start = range.start;
            let taken = granted(self.try_drain(range)).into_iter();
            let behind = self.split_off(start);
            self.extend(bits);
            self.extend_from_bitslice(&behind);
            Drain { taken, from: core::marker::PhantomData }
        }
    }
}

#[cfg(feature = "alloc")]
pub use owned::{Drain, IntoIter};
