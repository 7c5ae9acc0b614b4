//! An Elias-Fano list with select.
use fehimbary::prelude::*;

pub struct EliasFano {
    lows: BitVec<u64, Lsb0>,
    highs: BitVec<u64, Lsb0>,
    low_bits: usize,
    len: usize,
    /// Positions of every 64th one.
    samples: Vec<usize>,
}

impl EliasFano {
    pub fn new(sorted: &[u64], universe: u64) -> Self {
        let len = sorted.len();
        let low_bits = if len == 0 {
            0
        } else {
            63 - (universe / len as u64).max(1).leading_zeros() as usize
        };
        let mut lows: BitVec<u64, Lsb0> = BitVec::with_capacity(len * low_bits);
        let mut highs = bitvec![u64, Lsb0; 0; len + (universe >> low_bits) as usize + 1];
        for (i, &value) in sorted.iter().enumerate() {
            lows.extend_from_bitslice(value.view_bits::<Lsb0>().part(..low_bits));
            highs.set((value >> low_bits) as usize + i, true);
        }
        let samples = highs.iter_ones().step_by(64).collect();
        EliasFano {
            lows,
            highs,
            low_bits,
            len,
            samples,
        }
    }

    fn select(&self, i: usize) -> usize {
        let from = self.samples[i / 64];
        from + self.highs.part(from..).iter_ones().nth(i % 64).unwrap()
    }

    pub fn get(&self, i: usize) -> Option<u64> {
        if i >= self.len {
            return None;
        }
        let high = (self.select(i) - i) as u64;
        let low = match self.low_bits {
            0 => 0,
            n => self.lows.part(i * n..).part(..n).load_le::<u64>(),
        };
        Some(high << self.low_bits | low)
    }

    pub fn iter(&self) -> impl Iterator<Item = u64> + '_ {
        let low_bits = self.low_bits;
        let lows = self
            .lows
            .chunks_exact(low_bits.max(1))
            .map(move |c| if low_bits == 0 { 0 } else { c.load_le::<u64>() });
        self.highs
            .iter_ones()
            .enumerate()
            .zip(lows)
            .map(move |((i, at), low)| ((at - i) as u64) << low_bits | low)
    }

    /// The first value that is at least `bound`.
    pub fn next_geq(&self, bound: u64) -> Option<u64> {
        let (mut from, mut to) = (0, self.len);
        while from < to {
            let mid = (from + to) / 2;
            if self.get(mid).unwrap() < bound {
                from = mid + 1
            } else {
                to = mid
            }
        }
        self.get(from)
    }

    pub fn bytes(&self) -> usize {
        (self.lows.as_raw_slice().len() + self.highs.as_raw_slice().len()) * 8 + self.samples.len() * 8
    }
}

fn main() {
    let mut x = 88172645463325252u64;
    let mut values: Vec<u64> = (0..10_000)
        .map(|_| {
            x ^= x << 13;
            x ^= x >> 7;
            x ^= x << 17;
            x % (1 << 30)
        })
        .collect();
    values.sort_unstable();
    let list = EliasFano::new(&values, 1 << 30);
    for (i, &v) in values.iter().enumerate() {
        assert_eq!(list.get(i), Some(v));
    }
    assert!(list.iter().eq(values.iter().copied()));
    assert_eq!(list.next_geq(values[777]), Some(values[777]));
    println!("{} values in {} bytes, {} low bits", values.len(), list.bytes(), list.low_bits);
}

#[test]
fn values_are_found() {
    main();
}
