//! Calls that answer plainly where `try_..` has a result: they panic where memory is refused, as std's do.

use crate::bits::Bits;
use crate::memory::{granted, AllocError, Allocator, Global, Vec};
use crate::prelude::*;
use core::ops::RangeBounds;

/// Calls that give what another answers, or panic where it answers that memory was refused: `name(..) => call;`. Behind the call
/// stand its name, where users may choose it, and in brackets where else it panics.
macro_rules! plain {
    ([$($generic:tt)*] $kind:ty {$(
        $(#[$doc:meta])+
        $name:ident $([$($parameter:tt)*])? ($($argument:tt)*) $(-> $answer:ty)? => $call:expr $(, $twin:ident)? $(, [$more:literal])?;
    )*}) => {
        impl<$($generic)*> $kind {$(
            $(#[$doc])+
            ///
            /// # Panics
            ///
            #[doc = concat!("It panics where ", $($more, " or ",)? "memory is refused." $(, " [`", stringify!($twin), "`](BitVec::", stringify!($twin), ") answers a refusal.")?)]
            #[inline]
            #[track_caller]
            pub fn $name $(<$($parameter)*>)? ($($argument)*) $(-> $answer)? {
                granted($call)
            }
        )*}
    };
}

plain! { [T: BitStore, O: BitOrder, A: Allocator] BitVec<T, O, A> {
    /// Adds a bit.
    push(&mut self, bit: bool) => self.try_push(bit), try_push;

    /// Keeps the first `len` bits, or adds as many of `bit` as there are `len` with them.
    resize(&mut self, len: usize, bit: bool) => self.try_resize(len, bit), try_resize;

    /// Makes room for so many bits more, at least.
    reserve(&mut self, additional: usize) => self.try_reserve(additional), try_reserve;

    /// Makes room for so many bits more: [`reserve`](BitVec::reserve), since an allocator may give more than it is asked for.
    reserve_exact(&mut self, additional: usize) => self.try_reserve(additional), try_reserve;

    /// Keeps the first `len` bits, or adds the bits that a closure gives for their indices, until there are `len`.
    resize_with[F: FnMut(usize) -> bool](&mut self, len: usize, bit: F) => {
        let have = self.len();
        self.truncate(len);
        self.try_extend((have..len).map(bit))
    };

    /// Adds the bits of a view, of any element type and order.
    extend_from_bitslice(&mut self, bits: impl Bits) => self.try_extend_from_bitslice(bits.bits()), try_extend_from_bitslice;

    /// Adds the bits of a list of truth values.
    extend_from_bools(&mut self, bools: &[bool]) => self.try_extend_from_bools(bools), try_extend_from_bools;

    /// Adds the lowest `len` bits of a number, the highest of them first.
    extend_highest_first(&mut self, number: u64, len: usize) => self.try_extend_highest_first(number, len), try_extend_highest_first,
        ["`len` is above 64"];

    /// Adds the lowest `len` bits of a number, the lowest first.
    extend_lowest_first(&mut self, number: u64, len: usize) => self.try_extend_lowest_first(number, len), try_extend_lowest_first,
        ["`len` is above 64"];
} }

plain! { [T: BitStore, O: SliceOrder, A: Allocator] BitVec<T, O, A> {
    /// Puts a bit at an index, before the one that stands there.
    insert(&mut self, index: usize, bit: bool) => self.try_insert(index, bit), try_insert, ["the index is above the length"];

    /// Adds the bits of another sequence, which has none afterwards.
    append[B: Allocator](&mut self, other: &mut BitVec<T, O, B>) => self.try_append(other), try_append;

    /// Adds copies of the bits of a range.
    extend_from_within(&mut self, range: impl RangeBounds<usize>) => {
        let copy = self.part(range).to_bitvec();
        self.try_extend_from_bitslice(copy.as_bitslice())
    }, ["the range isn't one of the bits"];
} }

plain! { [T: BitStore, O: SliceOrder, A: Allocator + Clone] BitVec<T, O, A> {
    /// The bits from an index on, which the sequence loses.
    split_off(&mut self, at: usize) -> Self => self.try_split_off(at), try_split_off, ["the index is above the length"];
} }

plain! { [T: BitStore, O: BitOrder] BitVec<T, O> {
    /// A sequence of no bit, with memory for so many.
    with_capacity(bits: usize) -> Self => BitVec::try_with_capacity(bits), try_with_capacity;

    /// So many of one bit.
    repeat(bit: bool, len: usize) -> Self => BitVec::try_repeat(bit, len), try_repeat;

    /// The bits of a list of truth values.
    from_bools(bools: &[bool]) -> Self => BitVec::try_from_bools_in(Global, bools), try_from_bools_in;

    /// The bits of a view, of any element type and order.
    from_bitslice(bits: impl Bits) -> Self => BitVec::try_from_bitslice_in(Global, bits.bits()), try_from_bitslice_in;

    /// All bits of one element.
    from_element(element: T) -> Self => BitVec::try_from_slice(&[element]), try_from_slice;

    /// All bits of the elements, which are copied.
    from_slice(elements: &[T]) -> Self => BitVec::try_from_slice(elements), try_from_slice, ["they are more than `MAX_BITS`"];
} }

impl<T: BitStore, O: BitOrder, A: Allocator> BitVec<T, O, A> {
    /// Makes each element of the memory this one: `set_elements` of `bitvec`.
    pub fn set_elements(&mut self, element: T) {
        self.as_raw_mut_slice().fill(element);
    }

    /// Makes each bit of the elements that isn't one of the sequence this one.
    pub fn set_uninitialized(&mut self, bit: bool) {
        let window = self.window();
        let mut all = BitSliceMut::<T, O>::from_slice_mut(self.as_raw_mut_slice());
        crate::proved::words::fill::<O, _>(&mut crate::cells::Exclusive::new(all.as_mut().into_slice()), before(window), bit);
        let behind = crate::index::Window { start: window.start + window.len, len: all.len() - window.start - window.len };
        crate::proved::words::fill::<O, _>(&mut crate::cells::Exclusive::new(all.into_slice()), behind, bit);
    }
}

/// The bits before a window.
fn before(window: crate::index::Window) -> crate::index::Window {
    crate::index::Window { start: 0, len: window.start }
}

impl<T: BitStore, O: SliceOrder, A: Allocator> BitVec<T, O, A> {
    /// Takes out each bit that is as the one before it.
    pub fn dedup(&mut self) {
        let mut last = None;
        self.retain(|_, &bit| last.replace(bit) != Some(bit));
    }
}

impl<T: BitStore, O: BitOrder> BitVec<T, O> {
    /// A sequence of no bit, which asks for no memory.
    pub fn new() -> Self {
        BitVec::new_in(Global)
    }

    /// A sequence of no bit, with memory for so many; the error where that is refused.
    pub fn try_with_capacity(bits: usize) -> Result<Self, AllocError> {
        BitVec::try_with_capacity_in(Global, bits)
    }

    /// So many of one bit; the error where memory is refused.
    pub fn try_repeat(bit: bool, len: usize) -> Result<Self, AllocError> {
        BitVec::try_repeat_in(Global, bit, len)
    }

    /// All bits of the elements, which are copied; the error where they are more than `MAX_BITS` or memory is refused.
    pub fn try_from_slice(elements: &[T]) -> Result<Self, AllocError> {
        let bits = BitSlice::<T, O>::try_from_slice(elements).map_err(|_| AllocError)?;
        let mut copy = Vec::with_capacity(Global, elements.len())?;
        elements.iter().try_for_each(|element| copy.try_push(*element))?;
        Ok(BitVec::from_elements(copy, 0, bits.len()))
    }

    /// All bits of the elements of a `Vec`, whose memory it takes.
    ///
    /// # Panics
    ///
    /// It panics where they are more than `MAX_BITS`.
    #[track_caller]
    pub fn from_vec(elements: alloc::vec::Vec<T>) -> Self {
        let len = elements.len().saturating_mul(T::BITS as usize);
        BitVec::from_elements(Vec::from(elements), 0, len)
    }

    /// Ends the sequence, and gives its elements.
    pub fn into_vec(self) -> alloc::vec::Vec<T> {
        self.into_elements().into_std()
    }

    /// Ends the sequence, and gives its elements in a box.
    pub fn into_boxed_slice(self) -> alloc::boxed::Box<[T]> {
        self.into_vec().into_boxed_slice()
    }

    /// The sequence, without memory that its bits don't need: a [`BitBox`](crate::boxed::BitBox).
    pub fn into_boxed_bitslice(mut self) -> Self {
        self.shrink_to_fit();
        self
    }

    /// The sequence itself: a call of `bitvec`'s `BitBox`.
    pub fn into_bitvec(self) -> Self {
        self
    }

    /// A view of the bits whose memory is never given back.
    pub fn leak(self) -> BitSliceMut<'static, T, O> {
        let window = self.window();
        let elements = self.into_vec().leak();
        BitSliceMut::from_slice_mut(elements).into_part(window.start..window.start + window.len)
    }
}

impl<T: BitStore, O: SliceOrder> BitVec<T, O> {
    /// Moves the bits to the first one of the first element.
    pub fn force_align(&mut self) {
        let window = self.window();
        let mut elements = core::mem::take(self).into_elements();
        let mut all = BitSliceMut::<T, O>::from_slice_mut(&mut elements);
        all.copy_within(window.start..window.start + window.len, 0);
        *self = BitVec::from_elements(elements, 0, window.len);
    }
}

/// Copies of what shows bits.
macro_rules! copies {
    ([$($generic:tt)*] $kind:ty) => {
        plain! { [$($generic)*] $kind {
            /// A sequence of the same bits.
            to_bitvec(&self) -> BitVec<T, O> => self.try_to_bitvec();
        } }

        impl<$($generic)*> $kind {
            /// A sequence of the same bits; the error where memory is refused.
            pub fn try_to_bitvec(&self) -> Result<BitVec<T, O>, AllocError> {
                self.try_to_bitvec_in(Global)
            }
        }
    };
    ([$($generic:tt)*] $kind:ty, repeats) => {
        copies!([$($generic)*] $kind);

        impl<$($generic)*> $kind {
            /// So many copies of the bits, one after the other.
            ///
            /// # Panics
            ///
            /// It panics where they are more than `MAX_BITS` or memory is refused.
            #[track_caller]
            pub fn repeat(&self, copies: usize) -> BitVec<T, O> {
                match self.try_repeat_in(Global, copies) {
                    Ok(made) => made,
                    Err(error) => panic!("{error}"),
                }
            }
        }
    };
}

copies!(['a, T: BitStore, O: SliceOrder] BitSlice<'a, T, O>, repeats);
copies!(['a, T: BitStore, O: SliceOrder] BitSliceMut<'a, T, O>, repeats);
copies!([T: BitStore, O: SliceOrder, const N: usize] BitArray<T, O, N>, repeats);
copies!([T: BitStore, O: SliceOrder, A: Allocator] BitVec<T, O, A>);
