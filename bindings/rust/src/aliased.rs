//! Writable pieces that may be alive together though they share elements, over `Cell`s: each call is one of a kernel.

use crate::bits::Bits;
use crate::cells::{Cells, CellsRead, Shared};
use crate::engine::{self, BitOp};
use crate::index::Window;
use crate::prelude::*;
pub use crate::references::BitCell;

use core::cell::Cell;
use core::marker::PhantomData;
use core::ops::{BitAndAssign, BitOrAssign, BitXorAssign, Index, Range, RangeBounds};
use core::fmt;

/// The elements of a memory, each of which is loaded and stored at once.
#[derive(Clone, Copy)]
struct Memory<'a, T>(&'a [Cell<T>]);

impl<T: BitStore> CellsRead for Memory<'_, T> {
    type Elem = T;

    #[inline]
    fn len(&self) -> usize {
        self.0.len()
    }

    #[inline]
    fn load(&mut self, index: usize) -> T {
        self.0[index].get()
    }
}

impl<T: BitStore> Cells for Memory<'_, T> {
    #[inline]
    fn store(&mut self, index: usize, element: T) {
        self.0[index].set(element)
    }
}

/// Bits of a view that are written while other pieces of it are alive: the items of `iter_mut`, `chunks_mut`, `split_mut` and
/// their like, and the halves of `split_at_mut`.
///
/// No two pieces have a bit in common, but they may have an element, so a piece stays in its thread. Its edits take it by
/// reference, as those of `bitvec`'s `&mut BitSlice` do; what cuts it takes it by value, or by [`as_mut`](BitCells::as_mut).
///
/// ```
/// use fehimbary::prelude::*;
///
/// let mut bits = bitvec![u8, Msb0; 0; 16];
/// let (left, right) = bits.split_at_mut(5);
/// right.store_be(0x155u16);
/// left.fill(true);
/// for (number, piece) in bits.chunks_mut(8).enumerate() {
///     piece.set(7, number == 0);
/// }
/// assert_eq!(bits.as_raw_slice(), [0b1111_1001, 0b0101_0100]);
/// ```
pub struct BitCells<'a, T: BitStore = usize, O: BitOrder = Lsb0> {
    cells: &'a [Cell<T>],
    head: usize,
    len: usize,
    order: PhantomData<O>,
}

impl<'a, T: BitStore, O: BitOrder> From<BitSliceMut<'a, T, O>> for BitCells<'a, T, O> {
    #[inline]
    fn from(bits: BitSliceMut<'a, T, O>) -> Self {
        let Window { start, len } = bits.window();
        BitCells { cells: Cell::from_mut(bits.into_elements()).as_slice_of_cells(), head: start, len, order: PhantomData }
    }
}

impl<'a, T: BitStore, O: BitOrder> BitSliceMut<'a, T, O> {
    /// The bits as a piece that others of the same memory may be cut from.
    #[inline]
    pub fn into_cells(self) -> BitCells<'a, T, O> {
        self.into()
    }
}

impl<'a, T: BitStore, O: BitOrder> BitCells<'a, T, O> {
    #[inline]
    fn memory(&self) -> Memory<'a, T> {
        Memory(self.cells)
    }

    #[inline]
    fn window(&self) -> Window {
        Window { start: self.head, len: self.len }
    }

    /// The piece of a range, which the caller gives to one only.
    #[inline]
    pub(crate) fn cut(&self, range: Range<usize>) -> Self {
        let bits = T::BITS as usize;
        let (from, to) = (self.head + range.start, self.head + range.end);
        let first = from / bits;
        let cells = &self.cells[first..(to + bits - 1) / bits.max(1)];
        BitCells { cells, head: from % bits, len: range.len(), order: PhantomData }
    }

    /// How many bits there are.
    #[inline]
    pub fn len(&self) -> usize {
        self.len
    }

    /// Whether there is no bit.
    #[inline]
    pub fn is_empty(&self) -> bool {
        self.len == 0
    }

    /// The bit at an index, if there is one.
    #[inline]
    pub fn get(&self, index: usize) -> Option<BitRef<'_, T, O>> {
        (index < self.len).then(|| BitRef::new(self[index]))
    }

    /// The first bit, if there is one.
    #[inline]
    pub fn first(&self) -> Option<BitRef<'_, T, O>> {
        self.get(0)
    }

    /// The last bit, if there is one.
    #[inline]
    pub fn last(&self) -> Option<BitRef<'_, T, O>> {
        self.get(self.len.wrapping_sub(1))
    }

    /// The bits, from both ends.
    #[inline]
    pub fn iter(&self) -> impl DoubleEndedIterator<Item = BitRef<'_, T, O>> + ExactSizeIterator + '_ {
        (0..self.len).map(move |index| BitRef::new(self[index]))
    }

    /// The same bits, as a piece that ends sooner.
    #[inline]
    pub fn as_mut(&mut self) -> BitCells<'_, T, O> {
        self.cut(0..self.len)
    }

    /// The piece of a range.
    ///
    /// # Panics
    ///
    /// It panics where the range begins behind its end or ends behind the bits.
    #[inline]
    #[track_caller]
    pub fn into_part(self, range: impl RangeBounds<usize>) -> Self {
        let range = crate::ranges::within(range, self.len);
        if range.start > range.end || range.end > self.len {
            crate::conditions::fails("into_part", "range.start <= range.end <= len", &[("range", &range), ("len", &self.len)]);
        }
        self.cut(range)
    }

    /// The piece of a range, which ends before this one does.
    ///
    /// # Panics
    ///
    /// It panics where the range begins behind its end or ends behind the bits.
    #[inline]
    #[track_caller]
    pub fn part_mut(&mut self, range: impl RangeBounds<usize>) -> BitCells<'_, T, O> {
        self.as_mut().into_part(range)
    }

    /// Sets each bit to what a closure gives for its index.
    pub fn fill_with<F: FnMut(usize) -> bool>(&self, mut bit: F) {
        (0..self.len).for_each(|index| self.write(index, bit(index)));
    }

    /// Sets each bit to what a closure gives for its index and itself.
    pub fn for_each<F: FnMut(usize, bool) -> bool>(&self, mut bit: F) {
        (0..self.len).for_each(|index| self.write(index, bit(index, self[index])));
    }

    #[inline]
    pub(crate) fn write(&self, index: usize, bit: bool) {
        engine::replace_bit::<O, _>(&mut self.memory(), self.window(), index, bit);
    }

    /// Whether two pieces lie in one memory and have an element of it in common.
    fn shares(&self, other: &Self) -> bool {
        let (left, right) = (self.cells.as_ptr_range(), other.cells.as_ptr_range());
        left.start < right.end && right.start < left.end
    }
}

/// Calls of one kernel each, on the memory and the window.
macro_rules! kernels {
    ($($(#[$doc:meta])* $name:ident($($argument:ident: $kind:ty),*) $(-> $answer:ty)? = |$memory:ident, $window:ident| $kernel:expr;)*) => {$(
        #[doc = concat!("As [`BitSliceMut::", stringify!($name), "`].")]
        #[inline]
        #[track_caller]
        pub fn $name(&self $(, $argument: $kind)*) $(-> $answer)? {
            let ($memory, $window) = (&mut self.memory(), self.window());
            $kernel
        }
    )*};
}

impl<'a, T: BitStore, O: SliceOrder> BitCells<'a, T, O> {
    kernels! {
        count_ones() -> usize = |memory, window| engine::count::<O, _>(memory, window);
        count_zeros() -> usize = |memory, window| engine::count_zeros::<O, _>(memory, window);
        any() -> bool = |memory, window| engine::any::<O, _>(memory, window);
        all() -> bool = |memory, window| engine::all::<O, _>(memory, window);
        not_any() -> bool = |memory, window| !engine::any::<O, _>(memory, window);
        not_all() -> bool = |memory, window| !engine::all::<O, _>(memory, window);
        some() -> bool = |memory, window| engine::any::<O, _>(memory, window) && !engine::all::<O, _>(memory, window);
        first_one() -> Option<usize> = |memory, window| O::find_first(memory, window, true);
        first_zero() -> Option<usize> = |memory, window| O::find_first(memory, window, false);
        last_one() -> Option<usize> = |memory, window| O::scan_last(memory, window, true);
        last_zero() -> Option<usize> = |memory, window| O::scan_last(memory, window, false);
        leading_ones() -> usize = |memory, window| O::find_first(memory, window, false).unwrap_or(window.len);
        leading_zeros() -> usize = |memory, window| O::find_first(memory, window, true).unwrap_or(window.len);
        trailing_ones() -> usize = |memory, window| O::scan_last(memory, window, false).map_or(window.len, |last| window.len - 1 - last);
        trailing_zeros() -> usize = |memory, window| O::scan_last(memory, window, true).map_or(window.len, |last| window.len - 1 - last);
        set(index: usize, bit: bool) = |memory, window| { engine::replace_bit::<O, _>(memory, window, index, bit); };
        replace(index: usize, bit: bool) -> bool = |memory, window| engine::replace_bit::<O, _>(memory, window, index, bit);
        swap(first: usize, second: usize) = |memory, window| engine::swap_bits::<O, _>(memory, window, first, second);
        fill(bit: bool) = |memory, window| engine::fill::<O, _>(memory, window, bit);
        invert() = |memory, window| engine::invert::<O, _>(memory, window);
        reverse() = |memory, window| engine::reverse::<O, _>(memory, window);
        rotate_left(by: usize) = |memory, window| engine::rotate_left::<O, _>(memory, window, by);
        rotate_right(by: usize) = |memory, window| engine::rotate_right::<O, _>(memory, window, by);
        shift_start(by: usize) = |memory, window| engine::shift_start::<O, _>(memory, window, by);
        shift_end(by: usize) = |memory, window| engine::shift_end::<O, _>(memory, window, by);
        copy_within(src: impl RangeBounds<usize>, dest: usize) = |memory, window| {
            let Range { start, end } = crate::ranges::within(src, window.len);
            O::block_copy_within(memory, window, start, end, dest)
        };
        copy_from_bitslice(src: impl Bits<Store = T, Order = O>) = |memory, window| {
            let src = src.bits();
            O::block_copy(memory, window, &mut Shared::new(src.elements()), src.window())
        };
        clone_from_bitslice(src: impl Bits) = |memory, window| clone_from(memory, window, src, PhantomData::<O>);
    }

    /// Copies the bits of another piece, which are as many.
    ///
    /// # Panics
    ///
    /// It panics where they aren't as many.
    #[track_caller]
    pub fn copy_from(&self, other: &BitCells<'_, T, O>) {
        O::block_copy(&mut self.memory(), self.window(), &mut other.memory(), other.window());
    }

    /// Swaps the bits with those of another piece, which are as many.
    ///
    /// # Panics
    ///
    /// It panics where they aren't as many.
    #[track_caller]
    pub fn swap_with(&self, other: &BitCells<'_, T, O>) {
        if self.len != other.len || !self.shares(other) {
            return O::block_swap(&mut self.memory(), self.window(), &mut other.memory(), other.window());
        }
        for index in 0..self.len {
            other.write(index, self.replace(index, other[index]));
        }
    }

    /// The indices of the ones.
    pub fn iter_ones(&self) -> impl Iterator<Item = usize> + '_ {
        self.places(true)
    }

    /// The indices of the zeros.
    pub fn iter_zeros(&self) -> impl Iterator<Item = usize> + '_ {
        self.places(false)
    }

    fn places(&self, want: bool) -> impl Iterator<Item = usize> + '_ {
        let mut from = 0;
        core::iter::from_fn(move || {
            let rest = Window { start: self.head + from, len: self.len - from };
            let found = from + O::find_first(&mut self.memory(), rest, want)?;
            from = found + 1;
            Some(found)
        })
    }

    fn combine(&self, other: &mut impl CellsRead<Elem = T>, from: Window, op: BitOp) {
        let len = self.len.min(from.len);
        O::block_op(&mut self.memory(), Window { start: self.head, len }, other, Window { start: from.start, len }, op);
        if matches!(op, BitOp::And) {
            self.cut(len..self.len).fill(false);
        }
    }

    /// A sequence of the same bits.
    ///
    /// # Panics
    ///
    /// It panics where memory is refused.
    #[cfg(feature = "alloc")]
    #[track_caller]
    pub fn to_bitvec(&self) -> BitVec<T, O> {
        let mut made = BitVec::repeat(false, self.len);
        let window = made.window();
        let to = &mut crate::cells::Exclusive::new(made.as_raw_mut_slice());
        O::block_copy(to, window, &mut self.memory(), self.window());
        made
    }
}

#[track_caller]
fn clone_from<O: SliceOrder, B: Bits, T: BitStore>(memory: &mut Memory<'_, T>, window: Window, src: B, _: PhantomData<O>) {
    let src = src.bits();
    if src.len() != window.len {
        crate::conditions::fails("clone_from_bitslice", "len == src.len", &[("len", &window.len), ("src.len", &src.len())]);
    }
    engine::bits_copy::<O, B::Order, _, _>(memory, window, &mut Shared::new(src.elements()), src.window());
}

/// Loads and stores of one kernel each.
macro_rules! numbers {
    ($($load:ident $store:ident;)*) => {$(
        #[doc = concat!("As [`BitSliceMut::", stringify!($load), "`].")]
        #[track_caller]
        pub fn $load<I: Integral>(&self) -> I {
            self.fits::<I>(stringify!($load));
            I::from_bits(O::$load(&mut self.memory(), self.window()), self.len as u32)
        }

        #[doc = concat!("As [`BitSliceMut::", stringify!($store), "`].")]
        #[track_caller]
        pub fn $store<I: Integral>(&self, value: I) {
            self.fits::<I>(stringify!($store));
            O::$store(&mut self.memory(), self.window(), value.to_bits());
        }
    )*};
}

impl<'a, T: BitStore, O: FieldOrder> BitCells<'a, T, O> {
    #[track_caller]
    fn fits<I: Integral>(&self, call: &str) {
        if self.len == 0 || self.len > I::BITS as usize {
            crate::conditions::fails(call, "0 < len <= I.BITS", &[("len", &self.len), ("I.BITS", &I::BITS)]);
        }
    }

    numbers!(load_le store_le; load_be store_be;);

    /// As [`BitSliceMut::load`].
    #[track_caller]
    pub fn load<I: Integral>(&self) -> I {
        if cfg!(target_endian = "little") { self.load_le() } else { self.load_be() }
    }

    /// As [`BitSliceMut::store`].
    #[track_caller]
    pub fn store<I: Integral>(&self, value: I) {
        if cfg!(target_endian = "little") { self.store_le(value) } else { self.store_be(value) }
    }
}

impl<T: BitStore, O: BitOrder> Index<usize> for BitCells<'_, T, O> {
    type Output = bool;

    #[inline]
    #[track_caller]
    fn index(&self, index: usize) -> &bool {
        if engine::get_bit::<O, _>(&mut self.memory(), self.window(), index) { &true } else { &false }
    }
}

macro_rules! operators {
    ($($operator:ident, $method:ident, $op:ident;)*) => {$(
        impl<T: BitStore, O: SliceOrder, B: Bits<Store = T, Order = O>> $operator<B> for BitCells<'_, T, O> {
            fn $method(&mut self, bits: B) {
                let bits = bits.bits();
                self.combine(&mut Shared::new(bits.elements()), bits.window(), BitOp::$op);
            }
        }

        impl<T: BitStore, O: SliceOrder> $operator<&BitCells<'_, T, O>> for BitCells<'_, T, O> {
            fn $method(&mut self, other: &BitCells<'_, T, O>) {
                self.combine(&mut other.memory(), other.window(), BitOp::$op);
            }
        }
    )*};
}

operators! {
    BitAndAssign, bitand_assign, And;
    BitOrAssign, bitor_assign, Or;
    BitXorAssign, bitxor_assign, Xor;
}

impl<T: BitStore, O: BitOrder, B: Bits> PartialEq<B> for BitCells<'_, T, O> {
    fn eq(&self, other: &B) -> bool {
        let other = other.bits();
        engine::bits_eq::<O, B::Order, _, _>(&mut self.memory(), self.window(), &mut Shared::new(other.elements()), other.window())
    }
}

impl<T: BitStore, O: BitOrder, U: BitStore, P: BitOrder> PartialEq<BitCells<'_, U, P>> for BitCells<'_, T, O> {
    fn eq(&self, other: &BitCells<'_, U, P>) -> bool {
        engine::bits_eq::<O, P, _, _>(&mut self.memory(), self.window(), &mut other.memory(), other.window())
    }
}

impl<T: BitStore, O: BitOrder> Eq for BitCells<'_, T, O> {}

impl<T: BitStore, O: BitOrder> fmt::Debug for BitCells<'_, T, O> {
    fn fmt(&self, f: &mut fmt::Formatter<'_>) -> fmt::Result {
        f.debug_list().entries(self.iter().map(|bit| u8::from(*bit))).finish()
    }
}

impl<T: BitStore, O: BitOrder> fmt::Display for BitCells<'_, T, O> {
    fn fmt(&self, f: &mut fmt::Formatter<'_>) -> fmt::Result {
        fmt::Debug::fmt(self, f)
    }
}
