//! What a call takes a view of: views, sequences and arrays, and references to these.

use crate::prelude::*;
use crate::slice::View;

/// What shows bits of one memory. A call that reads another's bits takes any of these, by value or by reference.
///
/// ```
/// use fehimbary::prelude::*;
///
/// let codes: BitVec<u8, Msb0> = bitvec![u8, Msb0; 1, 0, 1];
/// let header = [0b1010_0000u8];
/// assert!(header.view_bits::<Lsb0>().len() > codes.len());
/// assert!(header.view_bits::<Msb0>().starts_with(&codes));
/// ```
pub trait Bits {
    /// The elements of the memory.
    type Store: BitStore;
    /// The order of the bits of an element.
    type Order: BitOrder;

    /// A view of the bits.
    fn bits(&self) -> BitSlice<'_, Self::Store, Self::Order>;
}

/// What shows bits that can be written.
pub trait BitsMut: Bits {
    /// A view of the bits, for writing.
    fn bits_mut(&mut self) -> BitSliceMut<'_, Self::Store, Self::Order>;
}

macro_rules! shows {
    ([$($generic:tt)*] $kind:ty) => {
        impl<$($generic)*> Bits for $kind {
            type Store = T;
            type Order = O;

            #[inline]
            fn bits(&self) -> BitSlice<'_, T, O> {
                View::as_bitslice(self)
            }
        }
    };
    ([$($generic:tt)*] $kind:ty, $name:ident) => {
        shows!([$($generic)*] $kind);

        impl<$($generic)*> BitsMut for $kind {
            #[inline]
            fn bits_mut(&mut self) -> BitSliceMut<'_, T, O> {
                self.$name()
            }
        }
    };
}

shows!(['a, T: BitStore, O: BitOrder] BitSlice<'a, T, O>);
shows!(['a, T: BitStore, O: BitOrder] BitSliceMut<'a, T, O>, as_mut);
shows!([T: BitStore, O: BitOrder, const N: usize] BitArray<T, O, N>, as_mut_bitslice);
#[cfg(feature = "alloc")]
shows!([T: BitStore, O: BitOrder, A: crate::memory::Allocator] BitVec<T, O, A>, as_mut_bitslice);

macro_rules! by_reference {
    ($($reference:ty)*) => {$(
        impl<B: Bits + ?Sized> Bits for $reference {
            type Store = B::Store;
            type Order = B::Order;

            #[inline]
            fn bits(&self) -> BitSlice<'_, B::Store, B::Order> {
                (**self).bits()
            }
        }
    )*};
}

by_reference!(&B &mut B);

impl<B: BitsMut + ?Sized> BitsMut for &mut B {
    #[inline]
    fn bits_mut(&mut self) -> BitSliceMut<'_, B::Store, B::Order> {
        (**self).bits_mut()
    }
}
