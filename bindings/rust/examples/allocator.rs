//! A bitmap allocator.
use fehimbary::prelude::*;
use std::ops::Range;

pub struct Blocks<const WORDS: usize> {
    used: BitArray<u64, Lsb0, WORDS>,
    hint: usize,
}

impl<const WORDS: usize> Blocks<WORDS> {
    pub fn new() -> Self {
        Blocks {
            used: BitArray::ZERO,
            hint: 0,
        }
    }

    pub fn alloc(&mut self) -> Option<usize> {
        let at = match self.used.part(self.hint..).first_zero() {
            Some(found) => self.hint + found,
            None => self.used.part(..self.hint).first_zero()?,
        };
        self.used.set(at, true);
        self.hint = at + 1;
        Some(at)
    }

    /// First fit of a run of free blocks.
    pub fn alloc_run(&mut self, count: usize) -> Option<Range<usize>> {
        let mut from = 0;
        while from + count <= self.used.len() {
            from += self.used.part(from..).first_zero()?;
            let free = self.used.part(from..).leading_zeros();
            if free >= count {
                let run = from..from + count;
                self.used.part_mut(run.clone()).fill(true);
                return Some(run);
            }
            from += free;
        }
        None
    }

    /// The same, by windows.
    pub fn find_by_windows(&self, count: usize) -> Option<usize> {
        self.used.windows(count).position(|w| w.not_any())
    }

    pub fn free(&mut self, blocks: Range<usize>) {
        assert!(self.used.part(blocks.clone()).all(), "freed twice");
        self.hint = self.hint.min(blocks.start);
        self.used.part_mut(blocks).fill(false);
    }

    pub fn free_blocks(&self) -> usize {
        self.used.count_zeros()
    }

    pub fn largest(&self) -> usize {
        self.used.split(|_, &bit| bit).map(|hole| hole.len()).max().unwrap_or(0)
    }

    pub fn merge(&mut self, other: &Self) {
        self.used |= other.used;
    }

    pub fn bytes(&self) -> impl Iterator<Item = u8> + '_ {
        self.used.as_raw_slice().iter().flat_map(|w| w.to_le_bytes())
    }
}

fn main() {
    let mut b: Blocks<16> = Blocks::new();
    let mut runs = Vec::new();
    for n in (1..60).rev() {
        if let Some(run) = b.alloc_run(n) {
            runs.push(run);
        }
    }
    for run in runs.iter().step_by(2) {
        b.free(run.clone());
    }
    assert_eq!(
        b.find_by_windows(40),
        Some({
            let mut c = Blocks { used: b.used, hint: 0 };
            c.alloc_run(40).unwrap().start
        })
    );
    let one = b.alloc().unwrap();
    assert_eq!((one, b.free_blocks(), b.largest()), (0, 533, 58));
    let mut all = Blocks::new();
    all.alloc_run(1024).unwrap();
    b.merge(&all);
    assert_eq!((b.free_blocks(), b.alloc()), (0, None));
    println!("{} bytes, {} of them full", b.bytes().count(), b.bytes().filter(|byte| *byte == 0xFF).count());
}

#[test]
fn blocks_are_given_and_taken_back() {
    main();
}
