//! The laws of an order, tested.

use crate::prelude::{BitOrder, BitStore};

/// Tests at each width whether an order keeps the laws of [`BitOrder`], for a test of a type of one's own. It panics with the law
/// that doesn't hold, the width and the indices. Of `first_one` and `last_one` it tests elements with at most two bits that are 1,
/// and those with all bits of a range.
///
/// ```
/// use fehimbary::prelude::*;
///
/// /// The bits of an element by pairs, of each pair the higher first.
/// struct ByPairs;
///
/// impl BitOrder for ByPairs {
///     fn at<R: BitStore>(index: usize) -> usize {
///         index ^ 1
///     }
///
///     fn select<R: BitStore>(index: usize) -> R {
///         R::from_u128(1 << Self::at::<R>(index))
///     }
/// }
///
/// fehimbary::order::check::<ByPairs>();
/// ```
#[track_caller]
pub fn check<O: BitOrder>() {
    check_width::<u8, O>();
    check_width::<u16, O>();
    check_width::<u32, O>();
    check_width::<u64, O>();
    check_width::<u128, O>();
    check_width::<usize, O>();
}

#[track_caller]
fn check_width<R: BitStore, O: BitOrder>() {
    let width = R::BITS as usize;
    let mut seen = 0;
    for index in 0..width {
        let at = O::at::<R>(index);
        let is_new = at < width && seen >> at & 1 == 0;
        assert!(is_new, "`at` gives each bit number below the width {width} at one index: at {index} it is {at}");
        assert!(O::at::<R>(index) == at, "`at` gives for one index one number: at {index} of the width {width}");
        let is_that = O::select::<R>(index).to_u128() == 1 << at;
        assert!(is_that, "`select` gives the bit that `at` does: at {index} of the width {width}");
        seen |= 1u128 << at;
    }
    for from in 0..width {
        check_from::<R, O>(width, from);
    }
    let none = (O::first_one::<R>(R::ZERO), O::last_one::<R>(R::ZERO));
    assert!(none == (None, None), "an element that is 0 has no first and no last one: the width is {width}");
}

/// Tests the masks of the ranges from an index on, and the elements whose first one is there.
#[track_caller]
fn check_from<R: BitStore, O: BitOrder>(width: usize, from: usize) {
    assert!(O::mask::<R>(from, from).to_u128() == 0, "`mask` of no index is 0: from {from} of the width {width}");
    let mut all = R::ZERO;
    for last in from..width {
        all = all.or(O::select::<R>(last));
        let is_all = O::mask::<R>(from, last + 1).to_u128() == all.to_u128();
        assert!(is_all, "`mask` has the bits of its range: from {from} to {} of the width {width}", last + 1);
        for element in [all, O::select::<R>(from).or(O::select::<R>(last))] {
            let is_first = O::first_one::<R>(element) == Some(from);
            assert!(is_first, "`first_one` gives the least index: {from}, with {last}, of the width {width}");
            let is_last = O::last_one::<R>(element) == Some(last);
            assert!(is_last, "`last_one` gives the greatest index: {last}, with {from}, of the width {width}");
        }
    }
}
