//! Methods that std has in a newer Rust than the package needs.

/// `div_ceil` and `next_multiple_of`, which Rust has from 1.73 on.
pub(crate) trait RoundUp {
    /// The quotient, rounded up.
    fn div_up(self, by: Self) -> Self;

    /// The first multiple of `of` that isn't below the number.
    fn multiple_up(self, of: Self) -> Self;
}

impl RoundUp for usize {
    #[inline(always)]
    fn div_up(self, by: usize) -> usize {
        self / by + usize::from(self % by != 0)
    }

    #[inline(always)]
    fn multiple_up(self, of: usize) -> usize {
        self.div_up(of) * of
    }
}
