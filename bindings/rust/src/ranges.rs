//! Ranges of each kind, as the text takes them.

use core::ops::{Bound, Range, RangeBounds};

/// The range of a list of `len`. A bound past the greatest number is that number, which no list reaches.
#[inline(always)]
pub(crate) fn within(range: impl RangeBounds<usize>, len: usize) -> Range<usize> {
    let start = match range.start_bound() {
        Bound::Included(&start) => start,
        Bound::Excluded(&before) => before.saturating_add(1),
        Bound::Unbounded => 0,
    };
    let end = match range.end_bound() {
        Bound::Included(&last) => last.saturating_add(1),
        Bound::Excluded(&end) => end,
        Bound::Unbounded => len,
    };
    start..end
}
