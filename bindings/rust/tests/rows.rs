//! Rows that show a wrong body which no other test shows, each worked by hand.

use fehimbary::cells::{Cells, CellsRead, Shared};
use fehimbary::engine::{contains, rotate_left, word_steps};
use fehimbary::in_place;
use fehimbary::index::Window;
use fehimbary::prelude::*;

/// A memory that counts its loads.
struct Counted {
    bytes: Vec<u8>,
    loads: usize,
}

impl Counted {
    fn new(len: usize) -> Self {
        Counted { bytes: vec![0x5A; len], loads: 0 }
    }
}

impl CellsRead for Counted {
    type Elem = u8;

    fn len(&self) -> usize {
        self.bytes.len()
    }

    fn load(&mut self, index: usize) -> u8 {
        self.loads += 1;
        self.bytes[index]
    }
}

impl Cells for Counted {
    fn store(&mut self, index: usize, element: u8) {
        self.bytes[index] = element;
    }
}

#[test]
fn a_needle_is_found_at_the_last_place() {
    let (bytes, needle) = ([0b1010_0000u8], [0b101u8]);
    let (window, all) = (Window { start: 0, len: 8 }, Window { start: 0, len: 3 });
    assert!(contains::<Lsb0, _, _>(&mut Shared::new(&bytes), window, &mut Shared::new(&needle), all));
}

#[test]
fn two_ones_make_a_one() {
    let mut bytes = [0b0011_0101u8];
    in_place::or_within::<u8, Lsb0>(&mut bytes, 0..4, 4);
    assert_eq!(bytes, [0b0111_0101]);
}

// The first three places of its elements aren't the copy's.
#[test]
fn a_capacity_begins_with_the_first_bit() {
    let copy = BitSlice::<u8, Msb0>::from_slice(&[0xFF, 0xFF]).into_part(3..13).to_bitvec();
    assert_eq!(copy.capacity() % 8, 5);
}

// 4,096 bits are 64 steps. Each takes at most the nine elements that it touches, and two at its edges.
#[test]
fn an_exchange_loads_few_elements() {
    let (mut left, mut right) = (Counted::new(513), Counted::new(513));
    let (to, from) = (Window { start: 3, len: 4096 }, Window { start: 5, len: 4096 });
    word_steps::block_swap::<Lsb0, _, _>(&mut left, to, &mut right, from);
    assert!(left.loads <= 64 * 11 && right.loads <= 64 * 11, "{} and {}", left.loads, right.loads);
}

// Three reversals, of 2,048 bits twice and of 4,096, each of a step more than its bits take.
#[test]
fn a_rotation_takes_three_reversals() {
    let mut cells = Counted::new(513);
    rotate_left::<Lsb0, _>(&mut cells, Window { start: 3, len: 4096 }, 2048);
    assert!(cells.loads <= 2 * 33 * 11 + 65 * 11, "{}", cells.loads);
}
