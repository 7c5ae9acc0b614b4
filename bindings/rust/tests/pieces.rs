//! Writable pieces that share elements: what edits through them leave, beside lists, and which bits each of a walk has.

use fehimbary::prelude::*;
use std::fmt::Debug;
use std::ops::Range;

/// Numbers drawn in turn.
struct Drawn(u64);

impl Drawn {
    fn below(&mut self, bound: usize) -> usize {
        self.0 ^= self.0 << 13;
        self.0 ^= self.0 >> 7;
        self.0 ^= self.0 << 17;
        (self.0 >> 11) as usize % bound
    }

    fn bit(&mut self) -> bool {
        self.below(2) == 1
    }

    fn range(&mut self, len: usize) -> Range<usize> {
        let start = self.below(len + 1);
        start..start + self.below(len - start + 1)
    }
}

/// Edits of one piece, and of its list.
fn edit<T: BitStore, O: SliceOrder>(drawn: &mut Drawn, piece: &BitCells<'_, T, O>, list: &mut [bool]) {
    let len = list.len();
    let by = drawn.below(len + 1);
    match drawn.below(12) {
        0 if len > 0 => {
            let (index, bit) = (drawn.below(len), drawn.bit());
            assert_eq!(piece.replace(index, bit), std::mem::replace(&mut list[index], bit));
        }
        1 if len > 0 => {
            let (first, second) = (drawn.below(len), drawn.below(len));
            piece.swap(first, second);
            list.swap(first, second);
        }
        2 => {
            piece.fill(by % 2 == 0);
            list.fill(by % 2 == 0);
        }
        3 => {
            piece.invert();
            list.iter_mut().for_each(|bit| *bit = !*bit);
        }
        4 => {
            piece.reverse();
            list.reverse();
        }
        5 => {
            piece.rotate_left(by);
            list.rotate_left(by);
        }
        6 => {
            piece.rotate_right(by);
            list.rotate_right(by);
        }
        7 => {
            piece.shift_start(by);
            list.rotate_left(by);
            list[len - by..].fill(false);
        }
        8 => {
            piece.shift_end(by);
            list.rotate_right(by);
            list[..by].fill(false);
        }
        9 => {
            let src = drawn.range(len);
            let dest = drawn.below(len - src.len() + 1);
            piece.copy_within(src.clone(), dest);
            list.copy_within(src, dest);
        }
        10 => {
            piece.fill_with(|index| index % (by + 1) == 0);
            list.iter_mut().enumerate().for_each(|(index, bit)| *bit = index % (by + 1) == 0);
        }
        _ => {
            piece.for_each(|index, bit| bit != (index % (by + 1) == 0));
            list.iter_mut().enumerate().for_each(|(index, bit)| *bit = *bit != (index % (by + 1) == 0));
        }
    }
}

/// Edits of one half by the other.
fn combine<T: BitStore, O: SliceOrder>(drawn: &mut Drawn, left: &mut BitCells<'_, T, O>, right: &BitCells<'_, T, O>, list: &mut [bool], others: &mut [bool]) {
    let count = list.len().min(others.len());
    match drawn.below(5) {
        0 => {
            *left &= right;
            list.iter_mut().enumerate().for_each(|(index, bit)| *bit &= index < count && others[index]);
        }
        1 => {
            *left |= right;
            list.iter_mut().zip(others).for_each(|(bit, other)| *bit |= *other);
        }
        2 => {
            *left ^= right;
            list.iter_mut().zip(others).for_each(|(bit, other)| *bit ^= *other);
        }
        _ if list.len() != others.len() => {}
        3 => {
            left.copy_from(right);
            list.copy_from_slice(others);
        }
        _ => {
            left.swap_with(right);
            list.swap_with_slice(others);
        }
    }
}

/// Asserts what a piece answers.
fn answers<T: BitStore, O: SliceOrder>(piece: &BitCells<'_, T, O>, list: &[bool]) {
    let ones: Vec<usize> = (0..list.len()).filter(|index| list[*index]).collect();
    assert!(piece.iter().map(|bit| *bit).eq(list.iter().copied()));
    assert_eq!(piece.count_ones(), ones.len());
    assert_eq!((piece.first_one(), piece.last_one()), (ones.first().copied(), ones.last().copied()));
    assert_eq!(piece.leading_zeros(), ones.first().copied().unwrap_or(list.len()));
    assert_eq!(piece.trailing_zeros(), ones.last().map_or(list.len(), |last| list.len() - 1 - last));
    assert_eq!((piece.any(), piece.all()), (!ones.is_empty(), ones.len() == list.len()));
    assert!(piece.iter_ones().eq(ones));
    assert_eq!(piece.to_bitvec(), BitVec::<u64, Msb0>::from_bools(list));
}

fn halves<T: BitStore + Debug, O: SliceOrder>(seed: u64) {
    let mut drawn = Drawn(seed);
    let mut memory = vec![T::ZERO; 5];
    let len = memory.len() * T::BITS as usize;
    let mut list = vec![false; len];
    for _ in 0..3000 {
        let all = drawn.range(len);
        let mid = if drawn.bit() { all.len() / 2 } else { drawn.below(all.len() + 1) };
        let mut view = BitSliceMut::<T, O>::from_slice_mut(&mut memory);
        let mut part = view.part_mut(all.clone());
        let (mut left, mut right) = part.split_at_mut(mid);
        let (front, back) = list[all].split_at_mut(mid);
        for _ in 0..3 {
            match drawn.below(4) {
                0 => edit(&mut drawn, &left, front),
                1 => edit(&mut drawn, &right, back),
                2 => combine(&mut drawn, &mut left, &right, front, back),
                _ => combine(&mut drawn, &mut right, &left, back, front),
            }
            answers(&left, front);
            answers(&right, back);
        }
        assert!(view.iter().by_vals().eq(list.iter().copied()));
    }
}

#[test]
fn edits_through_two_halves_agree_with_lists() {
    halves::<u8, Lsb0>(1);
    halves::<u8, Msb0>(2);
    halves::<u16, HiLo>(3);
    halves::<u32, Msb0>(4);
    halves::<u64, Lsb0>(5);
    halves::<u128, Msb0>(6);
}

#[test]
fn a_closure_may_write_another_piece_of_the_same_element() {
    let mut bits = bitvec![u8, Lsb0; 0; 8];
    let (left, right) = bits.split_at_mut(4);
    right.fill_with(|index| {
        left.set(index, true);
        index % 2 == 0
    });
    left.for_each(|index, bit| {
        right.set(index, !right[index]);
        bit && index > 0
    });
    assert_eq!(bits, bits![0, 1, 1, 1, 0, 1, 0, 1]);
}

/// Writes into each bit the number of its piece among those that a walk gives, all of which are alive together, and into a list
/// the same by std's walk; both by turns from the front and the back.
macro_rules! assert_cut {
    ($bits:expr, $list:expr, $name:ident($($argument:expr),*)) => {{
        let (mut bits, mut list): (Vec<BitVec>, Vec<usize>) = (vec![bitvec![0; $list.len()]; 40], vec![0; $list.len()]);
        let _ = &mut bits;
        let mut whole = BitVec::<u8, Msb0>::from_bools(&$bits);
        let mut seen = Vec::new();
        let mut pieces = whole.$name($($argument),*);
        let mut others = list.$name($($argument),*);
        let mut back = false;
        loop {
            let (piece, other) = if back { (pieces.next_back(), others.next_back()) } else { (pieces.next(), others.next()) };
            let (Some(piece), Some(other)) = (piece, other) else { break };
            assert_eq!(piece.len(), other.len());
            other.fill(seen.len() + 1);
            seen.push(piece);
            back = !back;
        }
        assert!(pieces.next().is_none() && pieces.next_back().is_none() && others.next().is_none());
        for number in 0..seen.len() {
            seen.iter().enumerate().for_each(|(at, piece)| piece.fill(at == number));
            drop(seen[number].iter());
        }
        let count = seen.len();
        seen.iter().enumerate().for_each(|(at, piece)| piece.fill(at % 2 == 0));
        drop(seen);
        for (index, number) in list.iter().enumerate() {
            if *number > 0 {
                assert_eq!(whole[index], (*number - 1) % 2 == 0, "{} of {count}", stringify!($name));
            }
        }
    }};
}

#[test]
fn pieces_of_a_walk_have_the_bits_that_those_of_std_have() {
    for len in 0..30 {
        let list = vec![0usize; len];
        let bits = vec![false; len];
        for size in 1..9 {
            assert_cut!(bits, list, chunks_mut(size));
            assert_cut!(bits, list, chunks_exact_mut(size));
            assert_cut!(bits, list, rchunks_mut(size));
            assert_cut!(bits, list, rchunks_exact_mut(size));
            let mut whole = BitVec::<u16, Lsb0>::from_bools(&bits);
            whole.chunks_exact_mut(size).into_remainder().fill(true);
            assert!(whole.iter().by_vals().eq((0..len).map(|index| index >= len / size * size)));
            whole.fill(false);
            whole.rchunks_exact_mut(size).into_remainder().fill(true);
            assert!(whole.iter().by_vals().eq((0..len).map(|index| index < len % size)));
        }
    }
}

/// Asserts that the pieces of a split begin and end where those of std's split of the same list do.
macro_rules! assert_splits {
    ($list:expr, $name:ident($($count:expr)?) $(, $next:ident)?) => {{
        let mut bits = BitVec::<u8, Lsb0>::from_bools(&$list);
        let mut copy = $list.clone();
        let mut pieces = bits.$name($($count,)? |_, bit| *bit);
        let mut others = copy.$name($($count,)? |bit| *bit);
        loop {
            let (piece, other) = (pieces.next(), others.next());
            assert_eq!(piece.as_ref().map(|it| it.len()), other.as_ref().map(|it| it.len()), "{} of {:?}", stringify!($name), $list);
            let (Some(piece), Some(other)) = (piece, other) else { break };
            assert!(piece.iter().map(|bit| *bit).eq(other.iter().copied()));
            piece.invert();
            other.iter_mut().for_each(|bit| *bit = !*bit);
            $(
                let (piece, other) = (pieces.$next(), others.$next());
                assert_eq!(piece.map(|it| it.to_bitvec()), other.map(|it| BitVec::<u8, Lsb0>::from_bools(it)));
            )?
        }
        drop((pieces, others));
        assert_eq!(bits, BitVec::<u8, Lsb0>::from_bools(&copy));
    }};
}

#[test]
fn splits_are_those_of_std() {
    for number in 0..1u32 << 9 {
        for len in [0, 1, 5, 9] {
            let list: Vec<bool> = (0..len).map(|place| number >> place & 1 == 1).collect();
            assert_splits!(list, split_mut());
            assert_splits!(list, split_mut(), next_back);
            assert_splits!(list, split_inclusive_mut());
            assert_splits!(list, split_inclusive_mut(), next_back);
            assert_splits!(list, rsplit_mut());
            assert_splits!(list, rsplit_mut(), next_back);
            for count in 0..5 {
                assert_splits!(list, splitn_mut(count));
                assert_splits!(list, rsplitn_mut(count));
            }
        }
    }
}

#[test]
fn references_write_when_they_end_or_at_once() {
    let mut bits = bitvec![u8, Msb0; 0; 11];
    for (index, mut bit) in bits.iter_mut().enumerate() {
        *bit = index % 3 == 0;
    }
    for (index, mut bit) in (&mut bits).into_iter().rev().enumerate() {
        assert_eq!(bit.replace(index == 0), (10 - index) % 3 == 0);
    }
    assert_eq!(bits.as_raw_slice(), [0, 0b0010_0000]);
    let (mut first, rest) = bits.split_first_mut().expect("a bit");
    *first = true;
    rest.set(0, true);
    drop(first);
    let (last, rest) = bits.split_last_mut().expect("a bit");
    rest.set(9, true);
    assert!(last == true && true == last && last == &true && format!("{last:?}") == "true");
    last.commit(false);
    *bits.first_mut().expect("a bit") ^= true;
    if let Some(mut bit) = bits.get_mut(3) {
        bit.set(true);
        assert!(bit == true && !*bit == false);
    }
    assert_eq!(bits, [false, true, false, true, false, false, false, false, false, true, false]);
}
