//! Vectors of integers, as the text takes them from `std::simd`: arrays, whose lanes the compiler keeps in one register.
#![allow(non_camel_case_types)]

use core::ops::{BitOr, Shl, Shr};

macro_rules! vector {
    ($name:ident, $lane:ty, $count:literal) => {
        #[derive(Clone, Copy)]
        pub(crate) struct $name([$lane; $count]);

        #[allow(dead_code)]
        impl $name {
            #[inline(always)]
            pub(crate) fn from_array(lanes: [$lane; $count]) -> Self {
                $name(lanes)
            }

            #[inline(always)]
            pub(crate) fn to_array(self) -> [$lane; $count] {
                self.0
            }

            /// The first elements of a slice.
            #[inline(always)]
            pub(crate) fn from_slice(elements: &[$lane]) -> Self {
                let mut lanes = [0; $count];
                lanes.copy_from_slice(&elements[..$count]);
                $name(lanes)
            }

            /// Makes the lanes a slice's first elements.
            #[inline(always)]
            pub(crate) fn copy_to_slice(self, elements: &mut [$lane]) {
                elements[..$count].copy_from_slice(&self.0);
            }
        }
    };
}

vector!(u8x8, u8, 8);
vector!(u16x4, u16, 4);
vector!(u32x2, u32, 2);
vector!(u64x1, u64, 1);
vector!(u64x2, u64, 2);

macro_rules! bytes_of_lanes {
    ($name:ident, $lane:ty, $size:literal) => {
        impl $name {
            /// The lanes of eight bytes, the first of each its lowest.
            #[inline(always)]
            pub(crate) fn from_le_bytes(bytes: u8x8) -> Self {
                let mut lanes = [0; 8 / $size];
                for (lane, bytes) in lanes.iter_mut().zip(bytes.0.chunks_exact($size)) {
                    let mut part = [0; $size];
                    part.copy_from_slice(bytes);
                    *lane = <$lane>::from_le_bytes(part);
                }
                $name(lanes)
            }

            /// The bytes of the lanes, of each its lowest first.
            #[inline(always)]
            pub(crate) fn to_le_bytes(self) -> u8x8 {
                let mut bytes = [0; 8];
                for (part, lane) in bytes.chunks_exact_mut($size).zip(self.0) {
                    part.copy_from_slice(&lane.to_le_bytes());
                }
                u8x8(bytes)
            }
        }
    };
}

bytes_of_lanes!(u16x4, u16, 2);
bytes_of_lanes!(u32x2, u32, 4);
bytes_of_lanes!(u64x1, u64, 8);

impl u64x2 {
    #[inline(always)]
    pub(crate) fn splat(lane: u64) -> Self {
        u64x2([lane; 2])
    }

    /// The lanes at two places of this vector and `next`, counted through both.
    #[inline(always)]
    pub(crate) fn shuffle(self, next: Self, places: [usize; 2]) -> Self {
        let lanes = [self.0[0], self.0[1], next.0[0], next.0[1]];
        u64x2([lanes[places[0]], lanes[places[1]]])
    }
}

macro_rules! lane_by_lane {
    ($($trait:ident $method:ident $operator:tt;)*) => {$(
        impl $trait for u64x2 {
            type Output = Self;

            #[inline(always)]
            fn $method(self, by: Self) -> Self {
                u64x2([self.0[0] $operator by.0[0], self.0[1] $operator by.0[1]])
            }
        }
    )*};
}

lane_by_lane! {
    Shl shl <<;
    Shr shr >>;
    BitOr bitor |;
}
