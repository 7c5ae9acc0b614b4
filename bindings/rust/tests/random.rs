//! Random calls on windows of two memories and on sequences, beside plain lists of truth values: six widths, three orders, a
//! million calls in all.

use fehimbary::memory::Global;
use fehimbary::prelude::*;
use std::fmt::Debug;

/// How many calls each width and order gets: a tenth in debug builds.
const CALLS: usize = 1_000_000 / 18 / if cfg!(debug_assertions) { 10 } else { 1 } + 1;

/// Numbers drawn by xorshift.
struct Drawn(u64);

impl Drawn {
    fn next(&mut self) -> u64 {
        self.0 ^= self.0 << 13;
        self.0 ^= self.0 >> 7;
        self.0 ^= self.0 << 17;
        self.0
    }

    fn below(&mut self, end: usize) -> usize {
        (self.next() % end as u64) as usize
    }

    fn bit(&mut self) -> bool {
        self.next() >> 33 & 1 == 1
    }

    /// Two indices of a list of `len`, in order.
    fn range(&mut self, len: usize) -> std::ops::Range<usize> {
        let (one, other) = (self.below(len + 1), self.below(len + 1));
        one.min(other)..one.max(other)
    }
}

/// The bits of elements, by the order's own `at`.
fn list<T: BitStore, O: BitOrder>(elements: &[T]) -> Vec<bool> {
    let width = T::BITS as usize;
    let bit = |place: usize| elements[place / width].to_u128() >> O::at::<T>(place % width) & 1 == 1;
    (0..elements.len() * width).map(bit).collect()
}

/// Combines bits with others, by one operator a number.
fn combine(kind: usize, bits: &mut [bool], others: impl IntoIterator<Item = bool>) {
    for (bit, other) in bits.iter_mut().zip(others) {
        match kind {
            0 => *bit &= other,
            1 => *bit |= other,
            2 => *bit ^= other,
            _ => *bit &= !other,
        }
    }
}

/// An edit of a view by what stands in another memory, or of both, and of their lists.
fn edit_both<T: BitStore, O: SliceOrder>(drawn: &mut Drawn, view: &mut BitSliceMut<'_, T, O>, bits: &mut [bool], beside: &mut BitSliceMut<'_, T, O>, other: &mut [bool]) {
    let count = bits.len().min(other.len());
    let (here, there) = (drawn.below(bits.len() - count + 1), drawn.below(other.len() - count + 1));
    let (here, there) = (here..here + count, there..there + count);
    match drawn.below(3) {
        0 => {
            view.part_mut(here.clone()).copy_from_bitslice(beside.as_ref().into_part(there.clone()));
            assert_eq!(view.as_ref().into_part(here.clone()), beside.as_ref().into_part(there.clone()));
            bits[here].copy_from_slice(&other[there]);
        }
        1 => {
            view.part_mut(here.clone()).swap_with_bitslice(&mut beside.part_mut(there.clone()));
            bits[here].swap_with_slice(&mut other[there]);
        }
        _ => {
            let (kind, right) = (drawn.below(4), beside.as_ref());
            match kind {
                0 => view.and_bits(right),
                1 => *view |= right,
                2 => *view ^= right,
                _ => view.and_not_bits(right),
            }
            let others = other.iter().copied().chain(std::iter::repeat(false));
            combine(kind, bits, others);
        }
    }
}

/// An edit of a view, and of its list.
fn edit<T: BitStore, O: SliceOrder>(drawn: &mut Drawn, view: &mut BitSliceMut<'_, T, O>, bits: &mut [bool]) {
    let len = bits.len();
    let by = drawn.below(len + 1);
    match drawn.below(13) {
        0 => {
            let bit = drawn.bit();
            view.fill(bit);
            bits.fill(bit);
        }
        1 => {
            view.invert();
            bits.iter_mut().for_each(|bit| *bit = !*bit);
        }
        2 => {
            view.reverse();
            bits.reverse();
        }
        3 => {
            view.rotate_left(by);
            bits.rotate_left(by);
        }
        4 => {
            view.rotate_right(by);
            bits.rotate_right(by);
        }
        5 => {
            view.shift_start(by);
            bits.copy_within(by.., 0);
            bits[len - by..].fill(false);
        }
        6 => {
            view.shift_end(by);
            bits.copy_within(..len - by, by);
            bits[..by].fill(false);
        }
        7 => {
            let range = drawn.range(len);
            let dest = drawn.below(len - range.len() + 1);
            view.copy_within(range.clone(), dest);
            bits.copy_within(range, dest);
        }
        8 if len > 0 => {
            let (index, bit) = (drawn.below(len), drawn.bit());
            view.set(index, bit);
            bits[index] = bit;
        }
        9 if len > 0 => {
            let (first, second) = (drawn.below(len), drawn.below(len));
            view.swap(first, second);
            bits.swap(first, second);
        }
        10 => {
            let (kind, range) = (drawn.below(4), drawn.range(len));
            let dest = drawn.below(len - range.len() + 1);
            match kind {
                0 => view.and_within(range.clone(), dest),
                1 => view.or_within(range.clone(), dest),
                2 => view.xor_within(range.clone(), dest),
                _ => view.and_not_within(range.clone(), dest),
            }
            let source = bits[range.clone()].to_vec();
            combine(kind, &mut bits[dest..dest + range.len()], source);
        }
        11 => {
            let count = by / 2;
            view.swap_within(0..count, len - count);
            let (front, back) = bits.split_at_mut(len - count);
            front[..count].swap_with_slice(back);
        }
        _ => {
            let size = 1 + drawn.below(9);
            let mut walk = view.lending_chunks_mut(size);
            while let Some(mut chunk) = walk.next_mut() {
                let bit = chunk.as_ref().first_one() == Some(0);
                chunk.fill(!bit);
            }
            bits.chunks_mut(size).for_each(|chunk| {
                let bit = chunk[0];
                chunk.fill(!bit);
            });
        }
    }
}

/// Questions to a view, and to its list.
fn ask<T: BitStore, O: SliceOrder>(drawn: &mut Drawn, view: BitSlice<'_, T, O>, bits: &[bool], other: &[bool], beside: BitSlice<'_, T, O>) {
    let ones = || bits.iter().enumerate().filter(|(_, bit)| **bit).map(|(index, _)| index);
    match drawn.below(9) {
        0 => assert_eq!(view.count_ones(), ones().count()),
        1 => assert_eq!((view.first_one(), view.last_one()), (ones().next(), ones().last())),
        2 => assert_eq!(view.first_zero(), bits.iter().position(|bit| !bit)),
        3 => assert!(view.iter_ones().eq(ones())),
        4 => assert!(view.iter().by_vals().rev().eq(bits.iter().rev().copied())),
        5 => assert_eq!((view.any(), view.all()), (bits.contains(&true), !bits.contains(&false))),
        6 => assert_eq!(view.cmp(&beside), bits.cmp(other)),
        7 => assert_eq!(view == beside, bits == other),
        _ => {
            let size = 1 + drawn.below(9);
            let counts = view.rchunks(size).map(|chunk| chunk.count_ones());
            assert!(counts.eq(bits.rchunks(size).map(|chunk| chunk.iter().filter(|bit| **bit).count())));
        }
    }
}

/// A number stored and loaded; of bits in the direction of the order it is that of all of them.
fn number<T: BitStore, O: FieldOrder>(drawn: &mut Drawn, mut view: BitSliceMut<'_, T, O>, is_little: bool) {
    let len = view.len();
    let value = (u128::from(drawn.next()) << 64 | u128::from(drawn.next())) >> (128 - len);
    if is_little {
        view.store_le::<u128>(value);
    } else {
        view.store_be::<u128>(value);
    }
    let loaded = if is_little { view.load_le::<u128>() } else { view.load_be::<u128>() };
    assert_eq!(loaded, value);
}

/// What stores and loads a number in a view.
type Number<T, O> = fn(&mut Drawn, BitSliceMut<'_, T, O>, bool);

fn windows<T: BitStore + Debug + PartialEq, O: SliceOrder>(seed: u64, number: Number<T, O>) {
    let mut drawn = Drawn(seed);
    let element = |drawn: &mut Drawn| T::from_u128((u128::from(drawn.next()) << 64 | u128::from(drawn.next())) & T::ALL.to_u128());
    for call in 0..CALLS {
        // narrow elements are as many as some words hold, on both sides
        let most = (200 / T::BITS as usize).max(4);
        let mut elements: Vec<T> = (0..1 + drawn.below(most)).map(|_| element(&mut drawn)).collect();
        let mut other: Vec<T> = (0..1 + drawn.below(most)).map(|_| element(&mut drawn)).collect();
        let (mut bits, mut other_bits) = (list::<T, O>(&elements), list::<T, O>(&other));
        let (range, beside) = (drawn.range(bits.len()), drawn.range(other_bits.len()));
        let mut right = BitSliceMut::<T, O>::from_slice_mut(&mut other).into_part(beside.clone());
        let mut view = BitSliceMut::<T, O>::from_slice_mut(&mut elements).into_part(range.clone());
        match drawn.below(10) {
            0..=4 => edit(&mut drawn, &mut view, &mut bits[range.clone()]),
            5 | 6 => edit_both(&mut drawn, &mut view, &mut bits[range.clone()], &mut right, &mut other_bits[beside.clone()]),
            7 | 8 => ask(&mut drawn, view.as_ref(), &bits[range.clone()], &other_bits[beside.clone()], right.as_ref()),
            _ if range.is_empty() || range.len() > 128 => {}
            _ => {
                number(&mut drawn, view, call % 2 == 0);
                let after = list::<T, O>(&elements);
                bits[range.clone()].copy_from_slice(&after[range.clone()]);
            }
        }
        assert_eq!(list::<T, O>(&elements), bits, "call {call} on {range:?}");
        assert_eq!(list::<T, O>(&other), other_bits, "call {call} on {range:?} beside {beside:?}");
    }
}

/// A sequence that grows and shrinks, from the index 3 of its first element on.
fn sequence<T: BitStore, O: SliceOrder>(seed: u64) -> Result<(), AllocError> {
    let mut drawn = Drawn(seed);
    let mut bits = BitSlice::<T, O>::from_slice(&[T::ALL]).into_part(3..7).try_to_bitvec_in(Global)?;
    let mut list = vec![true; 4];
    for _ in 0..CALLS / 4 {
        let (bit, index) = (drawn.bit(), drawn.below(list.len() + 1));
        match drawn.below(17) {
            0..=3 => {
                bits.try_push(bit)?;
                list.push(bit);
            }
            4 => assert_eq!(bits.pop(), list.pop()),
            5 => {
                bits.try_insert(index, bit)?;
                list.insert(index, bit);
            }
            6 if index < list.len() => assert_eq!(bits.remove(index), list.remove(index)),
            7 if index < list.len() => assert_eq!(bits.swap_remove(index), list.swap_remove(index)),
            8 => {
                let len = drawn.below(200);
                bits.try_resize(len, bit)?;
                list.resize(len, bit);
            }
            9 => {
                let more: Vec<bool> = (0..drawn.below(70)).map(|_| drawn.bit()).collect();
                bits.extend(&more);
                bits.try_extend_from_bools(&more)?;
                list.extend(&more);
                list.extend(&more);
            }
            10 => {
                let words = [drawn.next(), drawn.next()];
                bits.try_extend_from_bitslice(BitSlice::<u64, Msb0>::from_slice(&words).into_part(17..93))?;
                list.extend((17..93).map(|place| words[place / 64] >> (63 - place % 64) & 1 == 1));
            }
            11 => {
                bits.truncate(index);
                bits.shrink_to_fit();
                list.truncate(index);
            }
            12 => {
                bits.retain(|place, bit| *bit || place % 3 == 0);
                let mut places = 0..;
                list.retain(|bit| matches!(places.next(), Some(place) if place % 3 == 0) || *bit);
            }
            13 => {
                let mut rest = bits.try_split_off(index)?;
                rest.try_append(&mut bits)?;
                bits.try_append(&mut rest)?;
                list.rotate_left(index);
                assert!(rest.is_empty());
            }
            _ => {
                let range = drawn.range(list.len());
                let taken: Vec<bool> = bits.try_drain(range.clone())?.into_iter().collect();
                assert_eq!(taken, list.drain(range).collect::<Vec<_>>());
            }
        }
        assert!(bits.iter().by_vals().eq(list.iter().copied()));
        // just the elements that the bits touch, with zeros around these
        let elements = bits.as_raw_slice();
        assert_eq!(elements.len(), (bits.window().start + list.len() + T::BITS as usize - 1) / T::BITS as usize);
        assert_eq!(elements.view_bits::<O>().count_ones(), bits.count_ones());
    }
    Ok(())
}

fn orders<T: BitStore + Debug + PartialEq>() {
    windows::<T, Lsb0>(88172645463325252, number);
    windows::<T, Msb0>(1181783497276652981, number);
    // under this order no numbers are stored
    windows::<T, HiLo>(2463534242 + u64::from(T::BITS), |_, _, _| {});
    for made in [sequence::<T, Lsb0>(5), sequence::<T, Msb0>(7), sequence::<T, HiLo>(11)] {
        made.expect("memory");
    }
}

#[test]
fn u8_agrees() {
    orders::<u8>();
}

#[test]
fn u16_agrees() {
    orders::<u16>();
}

#[test]
fn u32_agrees() {
    orders::<u32>();
}

#[test]
fn u64_agrees() {
    orders::<u64>();
}

#[test]
fn u128_agrees() {
    orders::<u128>();
}

#[test]
fn usize_agrees() {
    orders::<usize>();
}
