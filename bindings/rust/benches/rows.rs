//! Times calls on a million bits beside loops by hand. `cargo bench` prints a line a row; `cargo test --benches` makes each call once
//! and compares what it did with what the loop does.

use fehimbary::prelude::*;
use std::time::Instant;

type Call = fn(&mut [u64], &[u64]) -> usize;

struct Row {
    name: &'static str,
    call: Call,
    by_hand: Call,
}

const WORDS: usize = 1 << 14;
const SHIFT: usize = 29;
const FIELD: usize = 12;

const ROWS: &[Row] = &[
    Row {
        name: "count_ones",
        call: |to, _| to.view_bits::<Lsb0>().count_ones(),
        by_hand: |to, _| to.iter().map(|word| word.count_ones() as usize).sum(),
    },
    Row {
        name: "first_one among zeros",
        call: |to, _| {
            to.fill(0);
            to.view_bits::<Lsb0>().first_one().map_or(0, |_| 1)
        },
        by_hand: |to, _| {
            to.fill(0);
            usize::from(to.iter().any(|word| *word != 0))
        },
    },
    Row {
        name: "ones of by_vals",
        call: |to, _| to.view_bits::<Lsb0>().iter().by_vals().filter(|bit| *bit).count(),
        by_hand: |to, _| to.iter().map(|word| (0..64).map(|index| (word >> index & 1) as usize).sum::<usize>()).sum(),
    },
    Row {
        name: "for_each",
        call: |to, _| {
            to.view_bits_mut::<Lsb0>().for_each(|index, bit| bit ^ (index & 3 == 0));
            0
        },
        by_hand: |to, _| {
            to.iter_mut().for_each(|word| *word ^= u64::MAX / 15);
            0
        },
    },
    Row {
        name: "sum of iter_ones",
        call: |to, _| to.view_bits::<Lsb0>().iter_ones().sum(),
        by_hand: |to, _| {
            let mut sum = 0;
            for (index, word) in to.iter().enumerate() {
                let mut rest = *word;
                while rest != 0 {
                    sum += 64 * index + rest.trailing_zeros() as usize;
                    rest &= rest - 1;
                }
            }
            sum
        },
    },
    Row {
        name: "|=",
        call: |to, from| {
            let mut to = to.view_bits_mut::<Lsb0>();
            to |= from.view_bits::<Lsb0>();
            0
        },
        by_hand: |to, from| {
            to.iter_mut().zip(from).for_each(|(to, from)| *to |= from);
            0
        },
    },
    Row {
        name: "copy, shifted by 29",
        call: |to, from| {
            let len = 64 * WORDS - 64;
            let mut to = to.view_bits_mut::<Lsb0>();
            to.part_mut(..len).copy_from_bitslice(from.view_bits().part(SHIFT..SHIFT + len));
            0
        },
        by_hand: |to, from| {
            for (to, pair) in to.iter_mut().zip(from.windows(2)) {
                *to = pair[0] >> SHIFT | pair[1] << (64 - SHIFT);
            }
            0
        },
    },
    Row {
        name: "fields of 12 bits",
        call: |to, _| to.view_bits::<Lsb0>().chunks_exact(FIELD).map(|field| field.load_le::<usize>()).sum(),
        by_hand: |to, _| {
            let field = |from: usize| {
                let (word, by) = (from / 64, from % 64);
                let next = if by + FIELD > 64 { to[word + 1] << (64 - by) } else { 0 };
                ((to[word] >> by | next) & ((1 << FIELD) - 1)) as usize
            };
            (0..64 * WORDS / FIELD).map(|number| field(number * FIELD)).sum()
        },
    },
    Row {
        name: "each third bit by iter_mut",
        call: |to, _| {
            let mut to = to.view_bits_mut::<Lsb0>();
            to.iter_mut().step_by(3).for_each(|mut bit| *bit = true);
            0
        },
        by_hand: |to, _| {
            (0..64 * WORDS).step_by(3).for_each(|index| to[index / 64] |= 1 << (index % 64));
            0
        },
    },
];

/// The words of a memory, drawn.
fn words(seed: u64) -> Vec<u64> {
    let mut drawn = seed;
    let next = |_| {
        drawn ^= drawn << 13;
        drawn ^= drawn >> 7;
        drawn ^= drawn << 17;
        drawn
    };
    (0..WORDS).map(next).collect()
}

/// The nanoseconds of a call: the best of 15 rounds of at least a millisecond.
fn time(call: Call) -> f64 {
    let (mut to, from) = (words(1), words(2));
    let mut round = |calls: u32| {
        let begin = Instant::now();
        let sum = (0..calls).fold(0, |sum: usize, _| sum.wrapping_add(call(&mut to, &from)));
        assert!(sum != usize::MAX);
        begin.elapsed().as_secs_f64() * 1e9 / f64::from(calls)
    };
    let mut calls = 1;
    while round(calls) * f64::from(calls) < 1e6 {
        calls *= 2;
    }
    (0..15).map(|_| round(calls)).fold(f64::INFINITY, f64::min)
}

fn main() {
    let is_timed = std::env::args().any(|word| word == "--bench");
    for row in ROWS {
        let (mut to, mut other, from) = (words(1), words(1), words(2));
        assert_eq!((row.call)(&mut to, &from), (row.by_hand)(&mut other, &from), "{}", row.name);
        assert!(to == other, "{}", row.name);
        if is_timed {
            println!("{:27} {:10.0} ns, by hand {:10.0} ns", row.name, time(row.call), time(row.by_hand));
        }
    }
}
