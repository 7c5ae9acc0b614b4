//! What errors print: those of the text that Rattle doesn't derive it for, and those by hand.

use crate::conversions::TryFromBitSliceError;
use crate::memory::AllocError;
use crate::prelude::Lsb0;
use crate::ptr::BitSpanError;
#[cfg(feature = "alloc")]
use crate::record::{EncodeError, LayoutError};
use crate::run::Refusal;
#[cfg(feature = "alloc")]
use crate::vec::RepeatError;
use core::fmt;

macro_rules! printed {
    ($($(#[$gate:meta])? $kind:ident: |$error:ident, $f:ident| $text:expr;)*) => {$(
        $(#[$gate])?
        impl fmt::Display for $kind {
            fn fmt(&self, $f: &mut fmt::Formatter<'_>) -> fmt::Result {
                let $error = self;
                $text
            }
        }

        #[cfg(feature = "std")]
        impl std::error::Error for $kind {}
    )*};
}

printed! {
    AllocError: |_error, f| f.write_str("memory was refused");
    TryFromBitSliceError: |_error, f| f.write_str("the view has not as many bits as the array");
    BitSpanError: |error, f| {
        let BitSpanError::TooLong(bits) = error;
        let most = crate::slice::BitSlice::<u8, Lsb0>::MAX_BITS;
        write!(f, "the elements have {bits} bits, and a view has at most {most}")
    };
    Refusal: |error, f| f.write_str(match error {
        Refusal::Range => "the range is reversed or not in the window",
        Refusal::Index => "an index is not below the length of the range",
        Refusal::Amount => "the amount is more than the length of the range",
        Refusal::Source => "the source is reversed or not in the range",
        Refusal::Dest => "the destination is not in the range",
        Refusal::Right => "the right window is not in the right memory",
        Refusal::Length => "the right window is not as long as the range",
        Refusal::Width => "a field is not 1 to 128 bits wide",
    });
    #[cfg(feature = "alloc")]
    LayoutError: |error, f| match error {
        LayoutError::Width(field) => write!(f, "the field {field} hasn't 1 to 128 bits"),
        LayoutError::Outside(field) => write!(f, "the field {field} isn't in the record"),
        LayoutError::Overlap(field, other) => write!(f, "the fields {field} and {other} have a bit in common"),
        LayoutError::Memory => f.write_str("memory for the layout was refused"),
    };
    #[cfg(feature = "alloc")]
    EncodeError: |error, f| match error {
        EncodeError::Count => f.write_str("there isn't one value for each field"),
        EncodeError::Range(field) => write!(f, "the value of the field {field} has more bits than the field"),
    };
    #[cfg(feature = "alloc")]
    RepeatError: |error, f| f.write_str(match error {
        RepeatError::TooLong => "the repeat would have more bits than a view can have",
        RepeatError::Memory => "memory for the repeat was refused",
    });
}
