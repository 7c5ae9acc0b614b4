//! The texts of what shows bits by `{:b}`, `{:o}`, `{:x}` and `{:X}`, and with prefixes by `{:#b}` and the others.

use crate::bits::Bits;
use crate::prelude::*;
use crate::slice;
use core::fmt::{self, Write};

/// The digits of a part in one element, behind what says their base.
struct Prefixed<D>(&'static str, D);

impl<D: fmt::Display> fmt::Debug for Prefixed<D> {
    fn fmt(&self, f: &mut fmt::Formatter<'_>) -> fmt::Result {
        f.write_str(self.0)?;
        write!(Bare(f), "{}", self.1)
    }
}

/// Prints a list of one item without its brackets.
struct Bare<'f, 'g>(&'f mut fmt::Formatter<'g>);

impl Write for Bare<'_, '_> {
    fn write_str(&mut self, text: &str) -> fmt::Result {
        self.0.write_str(text.trim_matches(&['[', ']'][..]))
    }
}

/// The parts of a view, each in one element.
fn parts<T: BitStore, O: BitOrder>(bits: BitSlice<'_, T, O>) -> impl Iterator<Item = BitSlice<'_, T, O>> {
    let width = T::BITS as usize;
    let (head, rest) = bits.split_at(bits.len().min(width - bits.window().start % width));
    Some(head).into_iter().filter(|head| !head.is_empty()).chain(rest.chunks(width))
}

macro_rules! texts {
    ($([$($generic:tt)*] $kind:ty;)*) => {$(
        texts!(@ [$($generic)*] $kind, Binary, "0b");
        texts!(@ [$($generic)*] $kind, Octal, "0o");
        texts!(@ [$($generic)*] $kind, LowerHex, "0x");
        texts!(@ [$($generic)*] $kind, UpperHex, "0x");
    )*};
    (@ [$($generic:tt)*] $kind:ty, $text:ident, $prefix:literal) => {
        impl<$($generic)*> fmt::$text for $kind {
            fn fmt(&self, f: &mut fmt::Formatter<'_>) -> fmt::Result {
                let bits = self.bits();
                if f.alternate() {
                    return f.debug_list().entries(parts(bits).map(|part| Prefixed($prefix, slice::$text(part)))).finish();
                }
                fmt::Display::fmt(&slice::$text(bits), f)
            }
        }
    };
}

texts! {
    [T: BitStore, O: BitOrder] BitSlice<'_, T, O>;
    [T: BitStore, O: BitOrder] BitSliceMut<'_, T, O>;
    [T: BitStore, O: BitOrder, const N: usize] BitArray<T, O, N>;
}
#[cfg(feature = "alloc")]
texts! { [T: BitStore, O: BitOrder, A: crate::memory::Allocator] BitVec<T, O, A>; }
