//! Signed integers as elements: their bits are those of the unsigned ones of their width.

use crate::store::BitStore;

macro_rules! inlined {
    ($($name:ident($($parameter:tt)*) $(-> $answer:ty)? { $body:expr })*) => {$(
        #[inline(always)]
        fn $name($($parameter)*) $(-> $answer)? {
            $body
        }
    )*};
}

macro_rules! signed {
    ($($signed:ident $unsigned:ident;)*) => {$(
        impl BitStore for $signed {
            const BITS: u32 = <$unsigned as BitStore>::BITS;
            const ZERO: Self = 0;
            const ALL: Self = -1;

            inlined! {
                in_range(self) { () }
                fits_in_memory() { () }
                from_u128(number: u128) -> Self { number as $signed }
                to_u128(self) -> u128 { self as $unsigned as u128 }
                and(self, other: Self) -> Self { self & other }
                or(self, other: Self) -> Self { self | other }
                xor(self, other: Self) -> Self { self ^ other }
                not(self) -> Self { !self }
                shl(self, by: u32) -> Self { self << by }
                shr(self, by: u32) -> Self { (self as $unsigned >> by) as $signed }
                count_ones(self) -> u32 { self.count_ones() }
                leading_zeros(self) -> u32 { self.leading_zeros() }
                trailing_zeros(self) -> u32 { self.trailing_zeros() }
            }
        }
    )*};
}

signed! {
    i8 u8;
    i16 u16;
    i32 u32;
    i64 u64;
    i128 u128;
    isize usize;
}
