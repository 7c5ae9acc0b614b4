//! Macros that make bits of a list: `bits!`, `bitvec!`, `bitarr!`, and `BitArr!` for a type.

use crate::order::{BitOrder, HiLo, Lsb0, Msb0};

/// An order that a constant can be made in.
pub trait ConstOrder: BitOrder {
    /// How an index becomes a place: it is reversed, and some of its bits are flipped.
    const WAY: (bool, usize);
}

impl ConstOrder for Lsb0 {
    const WAY: (bool, usize) = (false, 0);
}

impl ConstOrder for Msb0 {
    const WAY: (bool, usize) = (true, 0);
}

impl ConstOrder for HiLo {
    const WAY: (bool, usize) = (false, 4);
}

/// The place of an index in an element of so many bits.
pub const fn place<O: ConstOrder>(index: usize, bits: usize) -> usize {
    let (reversed, flipped) = O::WAY;
    (if reversed { bits - 1 - index } else { index }) ^ flipped
}

/// How many elements of so many bits have `len` bits.
pub const fn elements(len: usize, bits: usize) -> usize {
    len / bits + (len % bits != 0) as usize
}

/// The elements of a list of bits, or of so many times one bit, as a constant array: what `bits!` and `bitarr!` are made of.
#[macro_export]
macro_rules! elements_of_bits {
    ($store:ty, $order:ty; $value:expr; $count:expr) => {
        [if $value != 0 { <$store>::MAX } else { 0 }; $crate::macros::elements($count, <$store>::BITS as usize)]
    };
    ($store:ty, $order:ty; $($value:expr),*) => {{
        const __WIDTH: usize = <$store>::BITS as usize;
        const __BOOLS: &[bool] = &[$($value != 0),*];
        let mut made: [$store; $crate::macros::elements(__BOOLS.len(), __WIDTH)] = [0; $crate::macros::elements(__BOOLS.len(), __WIDTH)];
        let mut index = 0;
        while index < __BOOLS.len() {
            if __BOOLS[index] {
                made[index / __WIDTH] |= 1 << $crate::macros::place::<$order>(index % __WIDTH, __WIDTH);
            }
            index += 1;
        }
        made
    }};
}

/// A view of constant bits, [`BitSlice`](crate::slice::BitSlice), of a list or of so many times one bit.
///
/// The values, numbers of which each but 0 stands for 1, and the count are constants. The element type and the order may stand
/// before them; the order is `Lsb0`, `Msb0` or `HiLo`. `bits![mut ..]` is a `&mut BitVec`, whose values and count may be any.
///
/// ```
/// use fehimbary::prelude::*;
///
/// let bits = bits![0, 1, 1];
/// assert_eq!(bits.count_ones(), 2);
/// assert_eq!(bits![u8, Msb0; 1; 12].len(), 12);
/// let bits = bits![mut 0; 3];
/// bits.set(1, true);
/// assert_eq!(bits, bits![0, 1, 0]);
/// ```
#[macro_export]
macro_rules! bits {
    (mut $($rest:tt)*) => { &mut $crate::bitvec![$($rest)*] };
    () => { $crate::slice::BitSlice::<usize, $crate::order::Lsb0>::empty() };
    ($value:expr; $count:expr) => { $crate::bits![usize, $crate::order::Lsb0; $value; $count] };
    ($($value:expr),+ $(,)?) => { $crate::bits![usize, $crate::order::Lsb0; $($value),+] };
    ($store:ty, $order:ty $(;)?) => { $crate::slice::BitSlice::<$store, $order>::empty() };
    ($store:ty, $order:ty; $value:expr; $count:expr) => {{
        const __LEN: usize = $count;
        const __ELEMENTS: &[$store] = &$crate::elements_of_bits!($store, $order; $value; __LEN);
        $crate::slice::BitSlice::<$store, $order>::from_slice(__ELEMENTS).into_part(0..__LEN)
    }};
    ($store:ty, $order:ty; $($value:expr),+ $(,)?) => {{
        const __LEN: usize = [$($value != 0),+].len();
        const __ELEMENTS: &[$store] = &$crate::elements_of_bits!($store, $order; $($value),+);
        $crate::slice::BitSlice::<$store, $order>::from_slice(__ELEMENTS).into_part(0..__LEN)
    }};
}

/// A sequence of bits, [`BitVec`](crate::vec::BitVec), of a list or of so many times one bit.
///
/// Of the values, which are numbers, each but 0 stands for 1. The element type and the order may stand before them.
///
/// ```
/// use fehimbary::prelude::*;
///
/// let mut bits = bitvec![u8, Msb0; 0; 20];
/// bits.set(3, true);
/// assert_eq!(bits.as_raw_slice(), [0b0001_0000, 0, 0]);
/// assert_eq!(bitvec![0, 1, 1].count_ones(), 2);
/// ```
#[cfg(feature = "alloc")]
#[macro_export]
macro_rules! bitvec {
    () => { $crate::vec::BitVec::<usize, $crate::order::Lsb0>::new() };
    ($value:expr; $count:expr) => { $crate::vec::BitVec::<usize, $crate::order::Lsb0>::repeat($value != 0, $count) };
    ($($value:expr),+ $(,)?) => { $crate::vec::BitVec::<usize, $crate::order::Lsb0>::from_bools(&[$($value != 0),+]) };
    ($store:ty, $order:ty $(;)?) => { $crate::vec::BitVec::<$store, $order>::new() };
    ($store:ty, $order:ty; $value:expr; $count:expr) => { $crate::vec::BitVec::<$store, $order>::repeat($value != 0, $count) };
    ($store:ty, $order:ty; $($value:expr),+ $(,)?) => { $crate::vec::BitVec::<$store, $order>::from_bools(&[$($value != 0),+]) };
}

/// What [`bitvec!`](crate::bitvec) makes, as a [`BitBox`](crate::boxed::BitBox).
#[cfg(feature = "alloc")]
#[macro_export]
macro_rules! bitbox {
    ($($rest:tt)*) => { $crate::bitvec![$($rest)*].into_boxed_bitslice() };
}

/// An array of bits, [`BitArray`](crate::array::BitArray), a constant of the fewest elements that have the bits of a list, or so
/// many times one bit.
///
/// ```
/// use fehimbary::prelude::*;
///
/// const FLAGS: BitArr!(for 12, in u8, Msb0) = bitarr![u8, Msb0; 1, 0, 1, 0, 0, 0, 0, 0, 0, 0, 0, 1];
/// assert_eq!(FLAGS.into_inner(), [0b1010_0000, 0b0001_0000]);
/// assert_eq!(bitarr![u32, Lsb0; 0; 80].len(), 96);
/// ```
#[macro_export]
macro_rules! bitarr {
    (const $($rest:tt)*) => { $crate::bitarr![$($rest)*] };
    ($value:expr; $count:expr) => { $crate::bitarr![usize, $crate::order::Lsb0; $value; $count] };
    ($($value:expr),+ $(,)?) => { $crate::bitarr![usize, $crate::order::Lsb0; $($value),+] };
    ($store:ty, $order:ty; $value:expr; $count:expr) => {
        $crate::array::BitArray::<$store, $order, { $crate::macros::elements($count, <$store>::BITS as usize) }>::new(
            $crate::elements_of_bits!($store, $order; $value; $count),
        )
    };
    ($store:ty, $order:ty; $($value:expr),+ $(,)?) => {
        $crate::array::BitArray::<$store, $order, { $crate::macros::elements([$($value != 0),+].len(), <$store>::BITS as usize) }>::new(
            $crate::elements_of_bits!($store, $order; $($value),+),
        )
    };
}

/// The type of an array of so many bits: `BitArr!(for 80, in u32, Lsb0)`.
#[macro_export]
macro_rules! BitArr {
    (for $count:expr, in $store:ty, $order:ty) => {
        $crate::array::BitArray<$store, $order, { $crate::macros::elements($count, <$store>::BITS as usize) }>
    };
    (for $count:expr, in $store:ty) => { $crate::BitArr!(for $count, in $store, $crate::order::Lsb0) };
    (for $count:expr) => { $crate::BitArr!(for $count, in usize, $crate::order::Lsb0) };
}
