//! Writable walks that are iterators: bits, pieces of one length, and what a predicate splits.

use crate::aliased::{BitCell, BitCells};
use crate::bits::BitsMut;
use crate::prelude::*;
use crate::slice::{Cutting, ExactCutting, InChunks, InChunksFromEnd, InExactChunks, InExactChunksFromEnd};
use core::iter::FusedIterator;
use core::ops::Range;

/// What comes from both ends by its number, and more methods of each way, if there are some.
macro_rules! walks {
    ([$($generic:tt)*] $kind:ty, $item:ty, $($numbers:ident).+, |$walk:ident, $number:ident| $made:expr $(, {$($forward:tt)*} {$($backward:tt)*})?) => {
        impl<$($generic)*> Iterator for $kind {
            type Item = $item;

            #[inline]
            fn next(&mut self) -> Option<$item> {
                let $number = self.$($numbers).+.next()?;
                let $walk = self;
                Some($made)
            }

            #[inline]
            fn nth(&mut self, skipped: usize) -> Option<$item> {
                let $number = self.$($numbers).+.nth(skipped)?;
                let $walk = self;
                Some($made)
            }

            #[inline]
            fn size_hint(&self) -> (usize, Option<usize>) {
                self.$($numbers).+.size_hint()
            }

            $($($forward)*)?
        }

        impl<$($generic)*> DoubleEndedIterator for $kind {
            #[inline]
            fn next_back(&mut self) -> Option<$item> {
                let $number = self.$($numbers).+.next_back()?;
                let $walk = self;
                Some($made)
            }

            #[inline]
            fn nth_back(&mut self, skipped: usize) -> Option<$item> {
                let $number = self.$($numbers).+.nth_back(skipped)?;
                let $walk = self;
                Some($made)
            }

            $($($backward)*)?
        }

        impl<$($generic)*> ExactSizeIterator for $kind {}

        impl<$($generic)*> core::iter::FusedIterator for $kind {}
    };
}

pub(crate) use walks;

/// The bits of a piece, for writing, from both ends.
pub struct IterMut<'a, T: BitStore, O: BitOrder> {
    piece: BitCells<'a, T, O>,
    indices: Range<usize>,
}

walks!(['a, T: BitStore, O: BitOrder] IterMut<'a, T, O>, BitCell<'a, T, O>, indices, |walk, index| BitCell::new(&walk.piece, index));

impl<'a, T: BitStore, O: BitOrder> IterMut<'a, T, O> {
    /// The bits that are still to come, as a piece.
    pub fn into_bitslice(self) -> BitCells<'a, T, O> {
        self.piece.cut(self.indices)
    }
}

/// The pieces of one that is cut in a way, for writing, from both ends.
pub struct CutMut<'a, T: BitStore, O: BitOrder, C> {
    piece: BitCells<'a, T, O>,
    way: C,
    numbers: Range<usize>,
}

/// Pieces of a length from the first bit on, the last of which may be shorter.
pub type ChunksMut<'a, T, O> = CutMut<'a, T, O, InChunks>;
/// Pieces of a length from the first bit on.
pub type ChunksExactMut<'a, T, O> = CutMut<'a, T, O, InExactChunks>;
/// Pieces of a length from the last bit back, the last of which may be shorter.
pub type RChunksMut<'a, T, O> = CutMut<'a, T, O, InChunksFromEnd>;
/// Pieces of a length from the last bit back.
pub type RChunksExactMut<'a, T, O> = CutMut<'a, T, O, InExactChunksFromEnd>;

walks!(['a, T: BitStore, O: BitOrder, C: Cutting] CutMut<'a, T, O, C>, BitCells<'a, T, O>, numbers, |walk, number| walk
    .piece
    .cut(walk.way.piece(walk.piece.len(), number)));

impl<'a, T: BitStore, O: BitOrder, C: Cutting> CutMut<'a, T, O, C> {
    /// The walk itself, whose pieces may be alive together: a call of `bitvec`, where it promises that they aren't.
    pub fn remove_alias(self) -> Self {
        self
    }

    fn new(piece: BitCells<'a, T, O>, way: C) -> Self {
        let numbers = 0..way.count(piece.len());
        CutMut { piece, way, numbers }
    }
}

impl<'a, T: BitStore, O: BitOrder, C: ExactCutting> CutMut<'a, T, O, C> {
    /// The bits that no piece has.
    pub fn into_remainder(self) -> BitCells<'a, T, O> {
        self.piece.cut(self.way.remainder(self.piece.len()))
    }

    /// The bits that no piece has; the next time there are none.
    pub fn take_remainder(&mut self) -> BitCells<'a, T, O> {
        let Range { start, end } = self.way.remainder(self.piece.len());
        let rest = self.piece.cut(start..end);
        let kept = if start == 0 { end..self.piece.len() } else { 0..start };
        self.piece = self.piece.cut(kept);
        rest
    }
}

/// How a split goes: whether a piece has the bit at which it ends, whether it begins at the end, and how many pieces there are
/// at most.
#[derive(Clone, Copy)]
struct Way {
    inclusive: bool,
    reversed: bool,
    most: usize,
}

/// The pieces between bits for which a predicate holds, for writing, from both ends where `ENDS` says so.
pub struct SplitsMut<'a, T: BitStore, O: BitOrder, P, const ENDS: bool> {
    rest: Option<BitCells<'a, T, O>>,
    pred: P,
    way: Way,
}

/// The pieces between bits for which a predicate holds, for writing.
pub type SplitMut<'a, T, O, P> = SplitsMut<'a, T, O, P, false>;
/// The pieces between bits for which a predicate holds, for writing, from both ends.
pub type SplitEndsMut<'a, T, O, P> = SplitsMut<'a, T, O, P, true>;

impl<'a, T: BitStore, O: BitOrder, P: FnMut(usize, &bool) -> bool, const ENDS: bool> SplitsMut<'a, T, O, P, ENDS> {
    fn new(piece: BitCells<'a, T, O>, pred: P, way: Way) -> Self {
        let none = way.most == 0 || way.inclusive && piece.is_empty();
        let rest = if none { None } else { Some(piece) };
        SplitsMut { rest, pred, way }
    }

    /// The next piece from the front or the back.
    fn step(&mut self, back: bool) -> Option<BitCells<'a, T, O>> {
        let rest = self.rest.take()?;
        let len = rest.len();
        self.way.most -= 1;
        let asked = if self.way.most == 0 { 0 } else if back && self.way.inclusive { len.saturating_sub(1) } else { len };
        let pred = &mut self.pred;
        let mut holds = |index: &usize| pred(*index, &rest[*index]);
        let found = if back { (0..asked).rev().find(&mut holds) } else { (0..asked).find(&mut holds) };
        let index = match found {
            Some(index) => index,
            None => return Some(rest),
        };
        let end = index + usize::from(self.way.inclusive);
        let (piece, left) = if back { (if self.way.inclusive { end } else { index + 1 }..len, 0..end) } else { (0..end, index + 1..len) };
        if !(self.way.inclusive && left.is_empty()) {
            self.rest = Some(rest.cut(left));
        }
        Some(rest.cut(piece))
    }
}

impl<'a, T: BitStore, O: BitOrder, P: FnMut(usize, &bool) -> bool, const ENDS: bool> Iterator for SplitsMut<'a, T, O, P, ENDS> {
    type Item = BitCells<'a, T, O>;

    fn next(&mut self) -> Option<BitCells<'a, T, O>> {
        self.step(self.way.reversed)
    }

    fn size_hint(&self) -> (usize, Option<usize>) {
        match &self.rest {
            None => (0, Some(0)),
            Some(rest) => (1, Some(self.way.most.min(rest.len() + 1))),
        }
    }
}

impl<'a, T: BitStore, O: BitOrder, P: FnMut(usize, &bool) -> bool> DoubleEndedIterator for SplitEndsMut<'a, T, O, P> {
    fn next_back(&mut self) -> Option<BitCells<'a, T, O>> {
        self.step(!self.way.reversed)
    }
}

impl<T: BitStore, O: BitOrder, P: FnMut(usize, &bool) -> bool, const ENDS: bool> FusedIterator for SplitsMut<'_, T, O, P, ENDS> {}

/// A way's length, which is above 0.
#[track_caller]
fn sized(call: &str, size: usize) -> usize {
    if size == 0 {
        crate::conditions::fails(call, "0 < size", &[("size", &size)]);
    }
    size
}

/// Walks over pieces of a length.
macro_rules! chunks {
    ($($(#[$doc:meta])+ $name:ident -> $walk:ident, $way:ident;)*) => {$(
        $(#[$doc])+
        ///
        /// # Panics
        ///
        /// It panics where `size` is 0.
        #[track_caller]
        pub fn $name(self, size: usize) -> $walk<'a, T, O> {
            CutMut::new(self, $way { size: sized(stringify!($name), size) })
        }
    )*};
}

/// What cuts a piece.
impl<'a, T: BitStore, O: BitOrder> BitCells<'a, T, O> {
    /// The bits, for writing, one by one and from both ends.
    #[inline]
    pub fn iter_mut(self) -> IterMut<'a, T, O> {
        IterMut { indices: 0..self.len(), piece: self }
    }

    /// The bits before an index and those from it on, both for writing and alive together.
    ///
    /// # Panics
    ///
    /// It panics where the index is above the length.
    #[inline]
    #[track_caller]
    pub fn split_at_mut(self, mid: usize) -> (BitCells<'a, T, O>, BitCells<'a, T, O>) {
        if mid > self.len() {
            crate::conditions::fails("split_at_mut", "mid <= len", &[("mid", &mid), ("len", &self.len())]);
        }
        (self.cut(0..mid), self.cut(mid..self.len()))
    }

    /// The first bit and the others, for writing, if there is one.
    #[inline]
    pub fn split_first_mut(self) -> Option<(BitCell<'a, T, O>, BitCells<'a, T, O>)> {
        (!self.is_empty()).then(|| (BitCell::new(&self, 0), self.cut(1..self.len())))
    }

    /// The last bit and the others, for writing, if there is one.
    #[inline]
    pub fn split_last_mut(self) -> Option<(BitCell<'a, T, O>, BitCells<'a, T, O>)> {
        let last = self.len().checked_sub(1)?;
        Some((BitCell::new(&self, last), self.cut(0..last)))
    }

    chunks! {
        /// Pieces of `size` bits from the first on, for writing; the last may be shorter.
        chunks_mut -> ChunksMut, InChunks;
        /// Pieces of `size` bits from the first on, for writing; the remainder is what no piece has.
        chunks_exact_mut -> ChunksExactMut, InExactChunks;
        /// Pieces of `size` bits from the last back, for writing; the last of them may be shorter.
        rchunks_mut -> RChunksMut, InChunksFromEnd;
        /// Pieces of `size` bits from the last back, for writing; the remainder is what no piece has.
        rchunks_exact_mut -> RChunksExactMut, InExactChunksFromEnd;
    }

    /// The pieces between bits for which a predicate holds, for writing.
    pub fn split_mut<P: FnMut(usize, &bool) -> bool>(self, pred: P) -> SplitEndsMut<'a, T, O, P> {
        SplitsMut::new(self, pred, Way { inclusive: false, reversed: false, most: usize::MAX })
    }

    /// The pieces that end behind bits for which a predicate holds, for writing.
    pub fn split_inclusive_mut<P: FnMut(usize, &bool) -> bool>(self, pred: P) -> SplitEndsMut<'a, T, O, P> {
        SplitsMut::new(self, pred, Way { inclusive: true, reversed: false, most: usize::MAX })
    }

    /// The pieces between bits for which a predicate holds, for writing, from the last on.
    pub fn rsplit_mut<P: FnMut(usize, &bool) -> bool>(self, pred: P) -> SplitEndsMut<'a, T, O, P> {
        SplitsMut::new(self, pred, Way { inclusive: false, reversed: true, most: usize::MAX })
    }

    /// At most `count` pieces between bits for which a predicate holds, for writing; the last has all that is left.
    pub fn splitn_mut<P: FnMut(usize, &bool) -> bool>(self, count: usize, pred: P) -> SplitMut<'a, T, O, P> {
        SplitsMut::new(self, pred, Way { inclusive: false, reversed: false, most: count })
    }

    /// At most `count` such pieces, for writing, from the last on; the last of them has all that is left.
    pub fn rsplitn_mut<P: FnMut(usize, &bool) -> bool>(self, count: usize, pred: P) -> SplitMut<'a, T, O, P> {
        SplitsMut::new(self, pred, Way { inclusive: false, reversed: true, most: count })
    }
}

/// A call by the pieces of what shows writable bits.
macro_rules! by_cells {
    ([$($generic:tt)*] $kind:ty; $($name:ident $(<$p:ident>)? ($($argument:ident: $argued:ty),*) -> $answer:ty;)*) => {
        impl<$($generic)*> $kind {$(
            #[doc = concat!("As [`BitCells::", stringify!($name), "`], of the bits while they are borrowed.")]
            #[inline]
            #[track_caller]
            pub fn $name<'s $(, $p: FnMut(usize, &bool) -> bool)?>(&'s mut self $(, $argument: $argued)*) -> $answer {
                BitCells::from(BitsMut::bits_mut(self)).$name($($argument),*)
            }
        )*}
    };
    ([$($generic:tt)*] $kind:ty) => {
        by_cells! { [$($generic)*] $kind;
            iter_mut() -> IterMut<'s, T, O>;
            split_at_mut(mid: usize) -> (BitCells<'s, T, O>, BitCells<'s, T, O>);
            split_first_mut() -> Option<(BitCell<'s, T, O>, BitCells<'s, T, O>)>;
            split_last_mut() -> Option<(BitCell<'s, T, O>, BitCells<'s, T, O>)>;
            chunks_mut(size: usize) -> ChunksMut<'s, T, O>;
            chunks_exact_mut(size: usize) -> ChunksExactMut<'s, T, O>;
            rchunks_mut(size: usize) -> RChunksMut<'s, T, O>;
            rchunks_exact_mut(size: usize) -> RChunksExactMut<'s, T, O>;
            split_mut<P>(pred: P) -> SplitEndsMut<'s, T, O, P>;
            split_inclusive_mut<P>(pred: P) -> SplitEndsMut<'s, T, O, P>;
            rsplit_mut<P>(pred: P) -> SplitEndsMut<'s, T, O, P>;
            splitn_mut<P>(count: usize, pred: P) -> SplitMut<'s, T, O, P>;
            rsplitn_mut<P>(count: usize, pred: P) -> SplitMut<'s, T, O, P>;
        }

        impl<'s, $($generic)*> IntoIterator for &'s mut $kind {
            type Item = BitCell<'s, T, O>;
            type IntoIter = IterMut<'s, T, O>;

            fn into_iter(self) -> IterMut<'s, T, O> {
                self.iter_mut()
            }
        }
    };
}

by_cells!(['a, T: BitStore, O: BitOrder] BitSliceMut<'a, T, O>);
by_cells!([T: BitStore, O: BitOrder, const N: usize] BitArray<T, O, N>);
#[cfg(feature = "alloc")]
by_cells!([T: BitStore, O: BitOrder, A: crate::memory::Allocator] BitVec<T, O, A>);

impl<'a, T: BitStore, O: BitOrder> IntoIterator for BitCells<'a, T, O> {
    type Item = BitCell<'a, T, O>;
    type IntoIter = IterMut<'a, T, O>;

    fn into_iter(self) -> IterMut<'a, T, O> {
        self.iter_mut()
    }
}

impl<'a, T: BitStore, O: BitOrder> IntoIterator for BitSliceMut<'a, T, O> {
    type Item = BitCell<'a, T, O>;
    type IntoIter = IterMut<'a, T, O>;

    fn into_iter(self) -> IterMut<'a, T, O> {
        BitCells::from(self).iter_mut()
    }
}
