//! A bit matrix with Warshall's closure.
use fehimbary::prelude::*;
use std::fmt;

pub struct BitMatrix {
    n: usize,
    bits: BitVec<u64, Lsb0>,
}

impl BitMatrix {
    pub fn new(n: usize) -> Self {
        BitMatrix {
            n,
            bits: bitvec![u64, Lsb0; 0; n * n],
        }
    }

    pub fn identity(n: usize) -> Self {
        let mut made = Self::new(n);
        for i in 0..n {
            made.bits.set(i * n + i, true);
        }
        made
    }

    pub fn get(&self, r: usize, c: usize) -> bool {
        self.bits[r * self.n + c]
    }

    pub fn set(&mut self, r: usize, c: usize, bit: bool) {
        self.bits.set(r * self.n + c, bit);
    }

    pub fn row(&self, r: usize) -> BitSlice<'_, u64, Lsb0> {
        self.bits.part(r * self.n..(r + 1) * self.n)
    }

    pub fn row_mut(&mut self, r: usize) -> BitSliceMut<'_, u64, Lsb0> {
        let n = self.n;
        self.bits.part_mut(r * n..(r + 1) * n)
    }

    pub fn rows(&self) -> impl DoubleEndedIterator<Item = BitSlice<'_, u64, Lsb0>> + ExactSizeIterator {
        self.bits.chunks_exact(self.n)
    }

    pub fn edges(&self) -> usize {
        self.bits.count_ones()
    }

    /// Warshall: row i |= row k wherever (i, k).
    pub fn close(&mut self) {
        for k in 0..self.n {
            let row_k = self.row(k).to_bitvec();
            for i in 0..self.n {
                if i != k && self.get(i, k) {
                    self.row_mut(i).or_bits(&row_k);
                }
            }
        }
    }

    /// The same, by one split instead of a copy.
    pub fn close_split(&mut self) {
        let n = self.n;
        for k in 0..n {
            let (above, rest) = self.bits.split_at_mut(k * n);
            let (row_k, below) = rest.split_at_mut(n);
            for mut row in above.chunks_exact_mut(n).chain(below.chunks_exact_mut(n)) {
                if row[k] {
                    row |= &row_k;
                }
            }
        }
    }

    pub fn transposed(&self) -> Self {
        let mut made = Self::new(self.n);
        for (r, row) in self.rows().enumerate() {
            for c in row.iter_ones() {
                made.set(c, r, true);
            }
        }
        made
    }

    pub fn mul(&self, other: &Self) -> Self {
        let mut made = Self::new(self.n);
        for (mut to, from) in made.bits.chunks_exact_mut(self.n).zip(self.rows()) {
            for k in from.iter_ones() {
                to |= other.row(k);
            }
        }
        made
    }
}

impl fmt::Display for BitMatrix {
    fn fmt(&self, f: &mut fmt::Formatter) -> fmt::Result {
        for row in self.rows() {
            for bit in row.iter().by_vals() {
                f.write_str(if bit { "1" } else { "." })?;
            }
            writeln!(f)?;
        }
        Ok(())
    }
}

fn main() {
    let n = 50;
    let mut m = BitMatrix::identity(n);
    let mut x = 12345u32;
    for _ in 0..60 {
        x = x.wrapping_mul(1664525).wrapping_add(1013904223);
        let (a, b) = ((x >> 8) as usize % n, (x >> 20) as usize % n);
        m.set(a, b, true);
    }
    let mut other = BitMatrix { n, bits: m.bits.clone() };
    m.close();
    other.close_split();
    assert_eq!(m.bits, other.bits);
    let square = m.mul(&m);
    assert!(square.bits == m.bits);
    assert_eq!(m.transposed().transposed().bits, m.bits);
    let last = m.rows().rev().next().unwrap().count_ones();
    println!(
        "{} edges, last row {last}, most {}",
        m.edges(),
        m.rows().map(|r| r.count_ones()).max().unwrap()
    );
    let mut chain = BitMatrix::identity(4);
    for i in 0..3 {
        chain.set(i, i + 1, true);
    }
    chain.close();
    assert_eq!(chain.to_string(), "1111\n.111\n..11\n...1\n");
}

#[test]
fn two_closures_agree() {
    main();
}
