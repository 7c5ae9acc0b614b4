//! Times the package for Rust, its peers, the library as the kit builds it, through C, and loops by hand, all in one run, and
//! prints a line a time: the bits, the operation, what carried it out and nanoseconds a call. `rust.py` makes a table of them.
//! With these three words of a row and a number, the program makes so many calls of that row, for a tool that counts instructions.

use bit_vec::BitVec as BitVecOfBitVec;
use fehimbary::prelude::*;
use fixedbitset::FixedBitSet;
use std::hint::black_box;
use std::time::Instant;

extern "C" {
    fn fb_u64_copy(order: u32, to: *mut u64, count: usize, start: usize, len: usize, right: *const u64, right_count: usize, right_start: usize, right_len: usize) -> u32;
    fn fb_u64_or(order: u32, to: *mut u64, count: usize, start: usize, len: usize, right: *const u64, right_count: usize, right_start: usize, right_len: usize) -> u32;
    fn fb_u64_count_ones(order: u32, bits: *const u64, count: usize, start: usize, len: usize, ones: *mut usize) -> u32;
    fn fb_u64_first_one(order: u32, bits: *const u64, count: usize, start: usize, len: usize, index: *mut usize) -> u32;
    fn fb_u64_ones(order: u32, bits: *const u64, count: usize, start: usize, len: usize, from: usize, indices: *mut usize, room: usize, found: *mut usize) -> u32;
    fn fb_u64_fill(order: u32, bits: *mut u64, count: usize, start: usize, len: usize, bit: bool) -> u32;
    fn fb_u64_invert(order: u32, bits: *mut u64, count: usize, start: usize, len: usize) -> u32;
    fn fb_u64_get(order: u32, bits: *const u64, count: usize, start: usize, len: usize, index: usize, bit: *mut bool) -> u32;
    fn fb_u64_load_le(order: u32, bits: *const u64, count: usize, start: usize, len: usize, number: *mut u64) -> u32;
}

const LSB0: u32 = 0;
const SHIFT: usize = 29;

/// The time of a call, in nanoseconds: the best of 31 rounds of at least 50 microseconds.
fn time(mut call: impl FnMut()) -> f64 {
    let mut round = |calls: usize| {
        let begin = Instant::now();
        (0..calls).for_each(|_| call());
        begin.elapsed().as_nanos() as f64
    };
    let mut calls = 1;
    while round(calls) < 50_000.0 {
        calls *= 2;
    }
    (0..31).map(|_| round(calls) / calls as f64).fold(f64::INFINITY, f64::min)
}

/// The words of so many bits, drawn.
fn words(bits: usize, seed: u64) -> Vec<u64> {
    let mut drawn = seed;
    let next = |_| {
        drawn ^= drawn << 13;
        drawn ^= drawn >> 7;
        drawn ^= drawn << 17;
        drawn
    };
    (0..bits / 64).map(next).collect()
}

fn set_of(words: &[u64]) -> FixedBitSet {
    let halves = words.iter().flat_map(|word| [*word as u32, (*word >> 32) as u32]);
    FixedBitSet::with_capacity_and_blocks(words.len() * 64, halves)
}

fn vector_of(words: &[u64]) -> BitVecOfBitVec {
    BitVecOfBitVec::from_fn(words.len() * 64, |index| words[index / 64] >> (index % 64) & 1 == 1)
}

/// One size, whose times are printed.
struct Size {
    bits: usize,
}

/// The one row that is called, and how often, where the program's words say so: its bits, its operation, who, and the calls.
fn chosen() -> Option<(String, usize)> {
    let words: Vec<String> = std::env::args().skip(1).collect();
    let (calls, row) = words.split_last()?;
    Some((row.join("\t"), calls.parse().expect("how many calls")))
}

impl Size {
    fn row(&self, operation: &str, who: &str, mut call: impl FnMut()) {
        let row = format!("{}\t{operation}\t{who}", self.bits);
        match chosen() {
            None => println!("{row}\t{}", time(call)),
            Some((name, calls)) if name == row => (0..calls).for_each(|_| call()),
            Some(_) => {}
        }
    }

    fn two_sides(&self) {
        let bits = self.bits;
        let (mut to, from) = (words(bits, 3), words(bits, 5));
        let count = to.len();
        let (mut set, set_beside) = (set_of(&to), set_of(&from));
        let (mut vector, vector_beside) = (vector_of(&to), vector_of(&from));
        let beside = BitSlice::<u64, Lsb0>::from_slice(&from);
        self.row("copy", "fehimbary", || BitSliceMut::<u64, Lsb0>::from_slice_mut(black_box(&mut to)).copy_from_bitslice(black_box(beside)));
        self.row("copy", "kit", || unsafe { fb_u64_copy(LSB0, to.as_mut_ptr(), count, 0, bits, from.as_ptr(), count, 0, bits); });
        self.row("copy", "fixedbitset", || black_box(&mut set).as_mut_slice().copy_from_slice(black_box(&set_beside).as_slice()));
        self.row("copy", "bit-vec", || black_box(&mut vector).clone_from(black_box(&vector_beside)));
        self.row("copy", "loop", || black_box(&mut to).iter_mut().zip(black_box(&from)).for_each(|(to, from)| *to = *from));
        self.row("copy, shifted", "fehimbary", || {
            let len = bits - SHIFT;
            BitSliceMut::<u64, Lsb0>::from_slice_mut(black_box(&mut to)).part_mut(0..len).copy_from_bitslice(black_box(beside).into_part(SHIFT..bits));
        });
        self.row("copy, shifted", "kit", || unsafe { fb_u64_copy(LSB0, to.as_mut_ptr(), count, 0, bits - SHIFT, from.as_ptr(), count, SHIFT, bits - SHIFT); });
        self.row("copy, shifted", "loop", || {
            let (to, from) = (black_box(&mut to), black_box(&from));
            for (to, pair) in to.iter_mut().zip(from.windows(2)) {
                *to = pair[0] >> SHIFT | pair[1] << (64 - SHIFT);
            }
        });
        self.row("or", "fehimbary", || *black_box(&mut BitSliceMut::<u64, Lsb0>::from_slice_mut(&mut to)) |= black_box(beside));
        self.row("or", "kit", || unsafe { fb_u64_or(LSB0, to.as_mut_ptr(), count, 0, bits, from.as_ptr(), count, 0, bits); });
        self.row("or", "fixedbitset", || black_box(&mut set).union_with(black_box(&set_beside)));
        self.row("or", "bit-vec", || { black_box(&mut vector).or(black_box(&vector_beside)); });
        self.row("or", "loop", || black_box(&mut to).iter_mut().zip(black_box(&from)).for_each(|(to, from)| *to |= from));
    }

    fn edits(&self) {
        let bits = self.bits;
        let mut to = words(bits, 3);
        let count = to.len();
        let (mut set, mut vector) = (set_of(&to), vector_of(&to));
        self.row("fill", "fehimbary", || BitSliceMut::<u64, Lsb0>::from_slice_mut(black_box(&mut to)).fill(black_box(true)));
        self.row("fill", "kit", || unsafe { fb_u64_fill(LSB0, to.as_mut_ptr(), count, 0, bits, black_box(true)); });
        self.row("fill", "fixedbitset", || black_box(&mut set).set_range(.., black_box(true)));
        self.row("fill", "bit-vec", || black_box(&mut vector).set_all());
        self.row("fill", "loop", || black_box(&mut to).fill(if black_box(true) { u64::MAX } else { 0 }));
        self.row("!", "fehimbary", || BitSliceMut::<u64, Lsb0>::from_slice_mut(black_box(&mut to)).invert());
        self.row("!", "kit", || unsafe { fb_u64_invert(LSB0, to.as_mut_ptr(), count, 0, bits); });
        self.row("!", "fixedbitset", || black_box(&mut set).toggle_range(..));
        self.row("!", "bit-vec", || black_box(&mut vector).negate());
        self.row("!", "loop", || black_box(&mut to).iter_mut().for_each(|word| *word = !*word));
    }

    fn questions(&self) {
        let (bits, from) = (self.bits, words(self.bits, 5));
        let count = from.len();
        let (set, vector) = (set_of(&from), vector_of(&from));
        let view = BitSlice::<u64, Lsb0>::from_slice(&from);
        let mut found = 0;
        self.row("count", "fehimbary", || { black_box(black_box(view).count_ones()); });
        self.row("count", "kit", || unsafe { fb_u64_count_ones(LSB0, from.as_ptr(), count, 0, bits, &mut found); });
        self.row("count", "fixedbitset", || { black_box(black_box(&set).count_ones(..)); });
        self.row("count", "bit-vec", || { black_box(black_box(&vector).blocks().map(|block| block.count_ones()).sum::<u32>()); });
        self.row("count", "loop", || { black_box(black_box(&from).iter().map(|word| word.count_ones()).sum::<u32>()); });
        self.row("bits[i], each", "fehimbary", || {
            let view = black_box(view);
            black_box((0..view.len()).filter(|index| view[*index]).count());
        });
        self.row("bits[i], each", "kit", || {
            let (mut bit, mut ones) = (false, 0);
            for index in 0..bits {
                unsafe { fb_u64_get(LSB0, from.as_ptr(), count, 0, bits, index, &mut bit) };
                ones += usize::from(bit);
            }
            black_box(ones);
        });
        self.row("bits[i], each", "fixedbitset", || { black_box((0..bits).filter(|index| black_box(&set)[*index]).count()); });
        self.row("bits[i], each", "bit-vec", || { black_box((0..bits).filter(|index| black_box(&vector)[*index]).count()); });
        self.row("bits[i], each", "loop", || { black_box((0..bits).filter(|index| black_box(&from)[index / 64] >> (index % 64) & 1 == 1).count()); });
        self.row("iter_ones", "fehimbary", || { black_box(black_box(view).iter_ones().fold(0, usize::wrapping_add)); });
        let mut indices = vec![0; 256];
        self.row("iter_ones", "kit", || {
            let (mut next, mut sum) = (0, 0usize);
            loop {
                unsafe { fb_u64_ones(LSB0, from.as_ptr(), count, 0, bits, next, indices.as_mut_ptr(), indices.len(), &mut found) };
                sum = indices[..found].iter().fold(sum, |sum, index| sum.wrapping_add(*index));
                if found < indices.len() {
                    break;
                }
                next = indices[found - 1] + 1;
            }
            black_box(sum);
        });
        self.row("iter_ones", "fixedbitset", || { black_box(black_box(&set).ones().fold(0, usize::wrapping_add)); });
        self.row("iter_ones", "bit-vec", || { black_box(black_box(&vector).iter().enumerate().filter(|(_, bit)| *bit).fold(0, |sum, (index, _)| usize::wrapping_add(sum, index))); });
        self.row("iter_ones", "loop", || {
            let mut sum = 0usize;
            for (place, word) in black_box(&from).iter().enumerate() {
                let mut left = *word;
                while left != 0 {
                    sum = sum.wrapping_add(64 * place + left.trailing_zeros() as usize);
                    left &= left - 1;
                }
            }
            black_box(sum);
        });
        self.row("12 bits of chunks", "fehimbary", || { black_box(black_box(view).chunks_exact(12).map(|chunk| u64::from(chunk.load_le::<u16>())).sum::<u64>()); });
        self.row("12 bits of chunks", "kit", || {
            let (mut number, mut sum) = (0, 0u64);
            for place in 0..bits / 12 {
                unsafe { fb_u64_load_le(LSB0, from.as_ptr(), count, 12 * place, 12, &mut number) };
                sum += number;
            }
            black_box(sum);
        });
        self.row("12 bits of chunks", "loop", || {
            let from = black_box(&from);
            let number = |start: usize| {
                let low = from[start / 64] >> (start % 64);
                let high = if start % 64 > 52 { from[start / 64 + 1] << (64 - start % 64) } else { 0 };
                (low | high) & 0xFFF
            };
            black_box((0..bits / 12).map(|place| number(12 * place)).sum::<u64>());
        });
        let zeros = vec![0u64; count];
        let (view, set, vector) = (BitSlice::<u64, Lsb0>::from_slice(&zeros), set_of(&zeros), vector_of(&zeros));
        self.row("first_one of zeros", "fehimbary", || { black_box(black_box(view).first_one()); });
        self.row("first_one of zeros", "kit", || unsafe { fb_u64_first_one(LSB0, zeros.as_ptr(), count, 0, bits, &mut found); });
        self.row("first_one of zeros", "fixedbitset", || { black_box(black_box(&set).ones().next()); });
        self.row("first_one of zeros", "bit-vec", || { black_box(black_box(&vector).blocks().position(|block| block != 0)); });
        self.row("first_one of zeros", "loop", || { black_box(black_box(&zeros).iter().position(|word| *word != 0)); });
    }

    fn sequences(&self) {
        let bits = self.bits;
        let bit = |index: usize| index % 3 == 0;
        self.row("push, each", "fehimbary", || {
            let mut made = BitVec::<u64, Lsb0>::new();
            (0..bits).for_each(|index| made.push(bit(index)));
            black_box(made);
        });
        self.row("push, each", "bit-vec", || {
            let mut made = BitVecOfBitVec::new();
            (0..bits).for_each(|index| made.push(bit(index)));
            black_box(made);
        });
        self.row("push, each", "fixedbitset", || {
            let mut made = FixedBitSet::with_capacity(0);
            for index in 0..bits {
                made.grow(index + 1);
                made.set(index, bit(index));
            }
            black_box(made);
        });
        self.row("push, each", "loop", || {
            let mut made = Vec::new();
            for index in 0..bits {
                if index % 64 == 0 {
                    made.push(0u64);
                }
                made[index / 64] |= u64::from(bit(index)) << (index % 64);
            }
            black_box(made);
        });
        let whole = BitVec::<u64, Lsb0>::from_vec(words(bits, 3));
        self.row("pop, each", "fehimbary", || {
            let mut left = whole.clone();
            let mut ones = 0;
            while let Some(bit) = left.pop() {
                ones += usize::from(bit);
            }
            black_box(ones);
        });
        let whole = vector_of(&words(bits, 3));
        self.row("pop, each", "bit-vec", || {
            let mut left = whole.clone();
            let mut ones = 0;
            while let Some(bit) = left.pop() {
                ones += usize::from(bit);
            }
            black_box(ones);
        });
    }
}

/// Calls of few nanoseconds, in which a test of a condition may be seen.
fn few_bits() {
    let size = Size { bits: 8 };
    let mut word = [0u64; 4];
    let mut index = 0usize;
    size.row("set", "fehimbary", || {
        index = (index + 37) & 255;
        BitSliceMut::<u64, Lsb0>::from_slice_mut(black_box(&mut word)).set(black_box(index), true);
    });
    size.row("part, load_le", "fehimbary", || {
        index = (index + 37) & 127;
        black_box(BitSlice::<u64, Lsb0>::from_slice(black_box(&word)).into_part(index..index + 12).load_le::<u16>());
    });
    size.row("part, store_le", "fehimbary", || {
        index = (index + 37) & 127;
        BitSliceMut::<u64, Lsb0>::from_slice_mut(black_box(&mut word)).into_part(index..index + 12).store_le::<u16>(black_box(77));
    });
    size.row("copy_within of 64 bits", "fehimbary", || {
        index = (index + 37) & 127;
        BitSliceMut::<u64, Lsb0>::from_slice_mut(black_box(&mut word)).copy_within(index..index + 64, black_box(50));
    });
    size.row("rotate_left of 200 bits", "fehimbary", || {
        index = (index + 37) & 127;
        BitSliceMut::<u64, Lsb0>::from_slice_mut(black_box(&mut word)).into_part(0..200).rotate_left(black_box(index));
    });
}

fn main() {
    for bits in [1 << 20, 1 << 10] {
        let size = Size { bits };
        size.two_sides();
        size.edits();
        size.questions();
        size.sequences();
    }
    few_bits();
}
