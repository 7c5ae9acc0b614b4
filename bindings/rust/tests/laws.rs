//! `order::check` on orders of a user's own: those that keep the laws pass, and of the others each is told by the law that it breaks.

use fehimbary::order::{check, HiLo};
use fehimbary::prelude::*;
use std::panic::catch_unwind;

/// An order by a function of the width and the index, with one call that answers otherwise.
macro_rules! order {
    ($name:ident, $at:expr $(, $call:item)*) => {
        struct $name;

        impl BitOrder for $name {
            fn at<R: BitStore>(index: usize) -> usize {
                let at: fn(usize, usize) -> usize = $at;
                at(R::BITS as usize, index)
            }

            fn select<R: BitStore>(index: usize) -> R {
                R::from_u128(1 << Self::at::<R>(index))
            }

            $($call)*
        }
    };
}

order!(ByPairs, |_, index| index ^ 1);
order!(FromTheMiddle, |width, index| (index + width / 2) % width);
order!(Twice, |width, index| if index == width - 1 { 0 } else { index });
order!(TooHigh, |width, index| if width == 64 && index == 63 { 64 } else { index });
order!(
    Masked,
    |_, index| index ^ 1,
    fn mask<R: BitStore>(from: usize, to: usize) -> R {
        Lsb0::mask::<R>(from, to)
    }
);
order!(
    First,
    |width, index| width - 1 - index,
    fn first_one<R: BitStore>(element: R) -> Option<usize> {
        Msb0::last_one::<R>(element)
    }
);
order!(
    Last,
    |_, index| index,
    fn last_one<R: BitStore>(element: R) -> Option<usize> {
        Lsb0::first_one::<R>(element)
    }
);

struct Selected;

impl BitOrder for Selected {
    fn at<R: BitStore>(index: usize) -> usize {
        index
    }

    fn select<R: BitStore>(index: usize) -> R {
        Msb0::select::<R>(index)
    }
}

#[test]
fn orders_that_keep_the_laws_pass() {
    check::<Lsb0>();
    check::<Msb0>();
    check::<HiLo>();
    check::<ByPairs>();
    check::<FromTheMiddle>();
}

/// What `check` says of an order that breaks a law.
fn broken<O: BitOrder>() -> String {
    let panic = catch_unwind(check::<O>).expect_err("a law is broken");
    panic.downcast_ref::<String>().expect("a message").clone()
}

#[test]
fn orders_that_break_a_law_are_told_by_it() {
    assert_eq!(broken::<Twice>(), "`at` gives each bit number below the width 8 at one index: at 7 it is 0");
    assert!(broken::<TooHigh>().contains("each bit number below the width 64") || broken::<TooHigh>().contains("number < 2 ^ BITS"));
    assert_eq!(broken::<Selected>(), "`select` gives the bit that `at` does: at 0 of the width 8");
    assert_eq!(broken::<Masked>(), "`mask` has the bits of its range: from 0 to 1 of the width 8");
    assert_eq!(broken::<First>(), "`first_one` gives the least index: 0, with 1, of the width 8");
    assert_eq!(broken::<Last>(), "`last_one` gives the greatest index: 1, with 0, of the width 8");
}
