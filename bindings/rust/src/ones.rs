//! Walks over the indices of ones, or zeros, that pass a word of them at once.

/// The methods of `Iterator` that pass indices, for a walk that keeps a word of the ones that are to come.
macro_rules! passing {
    () => {
        #[inline]
        fn nth(&mut self, skipped: usize) -> Option<usize> {
            let mut left = skipped;
            while self.kept.ones.count_ones() as usize <= left {
                left -= self.kept.ones.count_ones() as usize;
                self.kept.ones = 0;
                self.rest.front = self.kept.edge.min(self.rest.back);
                let next = self.next();
                if left == 0 || next.is_none() {
                    return next;
                }
                left -= 1;
            }
            for _ in 0..left {
                self.kept.ones &= self.kept.ones - 1;
            }
            self.next()
        }

        #[inline]
        fn count(self) -> usize {
            self.len()
        }

        #[inline]
        fn last(mut self) -> Option<usize> {
            self.next_back()
        }
    };
}

pub(crate) use passing;
