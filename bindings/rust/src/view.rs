//! Arrays and slices of elements viewed as bits.

use crate::prelude::{BitOrder, BitSlice, BitSliceMut, BitStore, Lsb0};

/// The order of the machine's memory: `Lsb0` where the lowest byte comes first, else `Msb0`.
#[cfg(target_endian = "little")]
pub type LocalBits = crate::order::Lsb0;
/// The order of the machine's memory: `Lsb0` where the lowest byte comes first, else `Msb0`.
#[cfg(not(target_endian = "little"))]
pub type LocalBits = crate::order::Msb0;

/// What is viewed as bits: `bitvec`'s `BitView`.
///
/// ```
/// use fehimbary::prelude::*;
///
/// let mut words = [0u16; 2];
/// words.view_bits_mut::<Lsb0>().set(17, true);
/// assert_eq!(words.view_bits::<Lsb0>().first_one(), Some(17));
/// ```
pub trait BitView {
    /// Its elements.
    type Store: BitStore;

    /// All its bits. It panics where they are more than `MAX_BITS`.
    fn view_bits<O: BitOrder>(&self) -> BitSlice<'_, Self::Store, O>;

    /// All its bits, for writing. It panics where they are more than `MAX_BITS`.
    fn view_bits_mut<O: BitOrder>(&mut self) -> BitSliceMut<'_, Self::Store, O>;

    /// All its bits, the lowest of an element first.
    #[track_caller]
    fn bits(&self) -> BitSlice<'_, Self::Store, Lsb0> {
        self.view_bits()
    }

    /// All its bits, the lowest of an element first, for writing.
    #[track_caller]
    fn bits_mut(&mut self) -> BitSliceMut<'_, Self::Store, Lsb0> {
        self.view_bits_mut()
    }
}

/// What gives a slice of elements, viewed as bits.
pub trait AsBits<T: BitStore> {
    /// All bits of the elements. It panics where they are more than `MAX_BITS`.
    fn as_bits<O: BitOrder>(&self) -> BitSlice<'_, T, O>;
}

/// What gives a slice of elements for writing, viewed as bits.
pub trait AsMutBits<T: BitStore> {
    /// All bits of the elements, for writing. It panics where they are more than `MAX_BITS`.
    fn as_mut_bits<O: BitOrder>(&mut self) -> BitSliceMut<'_, T, O>;
}

impl<T: BitStore, L: AsRef<[T]> + ?Sized> AsBits<T> for L {
    #[track_caller]
    fn as_bits<O: BitOrder>(&self) -> BitSlice<'_, T, O> {
        BitSlice::from_slice(self.as_ref())
    }
}

impl<T: BitStore, L: AsMut<[T]> + ?Sized> AsMutBits<T> for L {
    #[track_caller]
    fn as_mut_bits<O: BitOrder>(&mut self) -> BitSliceMut<'_, T, O> {
        BitSliceMut::from_slice_mut(self.as_mut())
    }
}

macro_rules! viewed {
    ($([$($generic:tt)*] $kind:ty, $store:ty, $shared:ident, $writable:ident;)*) => {$(
        impl<$($generic)*> BitView for $kind {
            type Store = $store;

            #[track_caller]
            fn view_bits<O: BitOrder>(&self) -> BitSlice<'_, $store, O> {
                BitSlice::$shared(self)
            }

            #[track_caller]
            fn view_bits_mut<O: BitOrder>(&mut self) -> BitSliceMut<'_, $store, O> {
                BitSliceMut::$writable(self)
            }
        }
    )*};
    (elements: $($element:ty)*) => {
        viewed! { $([] $element, $element, from_element, from_element_mut;)* }
    };
}

viewed! {
    [T: BitStore] [T], T, from_slice, from_slice_mut;
    [T: BitStore, const N: usize] [T; N], T, from_slice, from_slice_mut;
}
viewed!(elements: u8 u16 u32 u64 u128 usize i8 i16 i32 i64 i128 isize);

/// The constructors of writable views by the name of the shared one, as `bitvec` has them.
impl<'a, T: BitStore, O: BitOrder> BitSlice<'a, T, O> {
    /// The writable view of no bit: [`BitSliceMut::empty_mut`].
    pub fn empty_mut() -> BitSliceMut<'a, T, O> {
        BitSliceMut::empty_mut()
    }

    /// All bits of one element, for writing: [`BitSliceMut::from_element_mut`].
    pub fn from_element_mut(element: &'a mut T) -> BitSliceMut<'a, T, O> {
        BitSliceMut::from_element_mut(element)
    }

    /// All bits of the elements, for writing: [`BitSliceMut::from_slice_mut`].
    #[track_caller]
    pub fn from_slice_mut(elements: &'a mut [T]) -> BitSliceMut<'a, T, O> {
        BitSliceMut::from_slice_mut(elements)
    }

    /// All bits of the elements, for writing: [`BitSliceMut::try_from_slice_mut`].
    pub fn try_from_slice_mut(elements: &'a mut [T]) -> Result<BitSliceMut<'a, T, O>, crate::ptr::BitSpanError> {
        BitSliceMut::try_from_slice_mut(elements)
    }
}
