//! Walks over bits that load elements give what a list of the same bits gives, and leave what it leaves, also where a test panics.
//! Edits by a closure change what a list's change.

use fehimbary::prelude::*;
use std::panic::{catch_unwind, AssertUnwindSafe};

/// Up to `bits`: numbers at and beside the edges of elements and of words.
fn edges(bits: usize) -> impl Iterator<Item = usize> + Clone {
    [0, 1, 8, 13, 63, 64, 65, 128, 191, 200, 256].into_iter().filter(move |&at| at <= bits)
}

/// A walk by elements over items of some kind.
trait Walk: DoubleEndedIterator + ExactSizeIterator + Clone {}

impl<I: DoubleEndedIterator + ExactSizeIterator + Clone> Walk for I {}

/// Two walks give the same from now on, taken one by one.
fn assert_same<I: Walk>(walk: I, list: std::slice::Iter<'_, bool>, value: fn(I::Item) -> bool) {
    assert_eq!(walk.len(), list.len());
    assert!(walk.map(value).eq(list.copied()));
}

/// What takes all bits.
fn assert_taken<I: Walk>(walk: &I, list: &[bool], value: fn(I::Item) -> bool) {
    let push = |mut all: Vec<bool>, item| {
        all.push(value(item));
        all
    };
    assert_eq!(walk.clone().fold(Vec::new(), push), list);
    assert!(walk.clone().rfold(Vec::new(), push).iter().eq(list.iter().rev()));
    assert_eq!(walk.clone().count(), list.len());
    assert_eq!(walk.clone().last().map(value), list.last().copied());
    assert_eq!(walk.clone().map(value).filter(|&bit| bit).count(), list.iter().filter(|&&bit| bit).count());
}

/// What passes bits.
fn assert_passed<I: Walk>(walk: &I, list: &[bool], value: fn(I::Item) -> bool) {
    for skipped in edges(list.len() + 1) {
        let (mut items, mut bits) = (walk.clone(), list.iter());
        assert_eq!(items.nth(skipped).map(value), bits.nth(skipped).copied());
        assert_same(items, bits, value);
        let (mut items, mut bits) = (walk.clone(), list.iter());
        assert_eq!(items.nth_back(skipped).map(value), bits.nth_back(skipped).copied());
        assert_same(items, bits, value);
    }
}

/// Walks over the indices of ones pass those that a list's do, also where some were taken from either end before.
fn assert_places<I: Walk + Iterator<Item = usize>>(places: I, list: &[usize]) {
    assert_eq!(places.clone().count(), list.len());
    assert_eq!(places.clone().last(), list.last().copied());
    for (front, back, skipped) in edges(list.len()).flat_map(|front| edges(3).flat_map(move |back| edges(300).map(move |skipped| (front, back, skipped)))) {
        let (mut walk, mut left) = (places.clone(), list.iter().copied());
        for _ in 0..front {
            assert_eq!(walk.next(), left.next());
        }
        for _ in 0..back {
            assert_eq!(walk.next_back(), left.next_back());
        }
        assert_eq!(walk.nth(skipped), left.nth(skipped));
        assert_eq!(walk.len(), left.len());
        assert_eq!(walk.clone().next_back(), left.clone().next_back());
        assert_eq!(walk.nth(2), left.nth(2));
        assert!(walk.eq(left));
    }
}

/// A search of either walk for a bit, whose test panics at its call `calls`, three times one after the other.
macro_rules! assert_sought {
    ($walk:expr, $list:expr, $value:expr, $wanted:expr, $calls:expr, $($name:ident)*) => {$(
        let (mut items, mut bits, mut left, mut other) = ($walk.clone(), $list.iter(), $calls, $calls);
        for _ in 0..3 {
            let found = catch_unwind(AssertUnwindSafe(|| items.$name(|item| asked(&mut left, $value(item), $wanted))));
            let expected = catch_unwind(AssertUnwindSafe(|| bits.$name(|&bit| asked(&mut other, bit, $wanted))));
            assert_eq!(found.ok(), expected.ok());
        }
        assert_same(items, bits, $value);
    )*};
}

/// Whether a bit is wanted. It panics where no calls are left.
fn asked(left: &mut usize, bit: bool, wanted: bool) -> bool {
    *left = left.checked_sub(1).expect("no calls are left");
    bit == wanted
}

/// What seeks a bit.
fn assert_found<I: Walk>(walk: &I, list: &[bool], value: fn(I::Item) -> bool) {
    for wanted in [false, true] {
        for calls in [0, 3, 64, 70, 1000] {
            assert_sought!(walk, list, value, wanted, calls, all any position);
        }
        let (mut items, mut bits) = (walk.clone().map(value), list.iter());
        assert_eq!(items.find(|&bit| bit == wanted), bits.find(|&&bit| bit == wanted).copied());
        assert!(items.eq(bits.copied()));
    }
}

fn assert_walk<I: Walk>(walk: I, list: &[bool], value: fn(I::Item) -> bool) {
    assert_taken(&walk, list, value);
    assert_passed(&walk, list, value);
    assert_found(&walk, list, value);
}

/// An edit of a part by a closure, which panics where no calls are left, changes the bits that a list's does, and no others.
fn assert_refills<T: BitStore, O: SliceOrder>(elements: &[T], bits: &[bool], part: std::ops::Range<usize>) {
    for calls in [0, 1, 13, 65, 1000] {
        let (mut memory, mut list) = (elements.to_vec(), bits.to_vec());
        let mut view = BitSliceMut::<T, O>::from_slice_mut(&mut memory).into_part(part.clone());
        let called = |index, bit| index < calls && (bit ^ (index % 3 == 0));
        let answer = |index, bit| if index < calls { called(index, bit) } else { panic!("no calls are left") };
        let ended = catch_unwind(AssertUnwindSafe(|| view.for_each(answer)));
        assert_eq!(ended.is_ok(), part.len() <= calls);
        list[part.clone()].iter_mut().enumerate().take(calls).for_each(|(index, bit)| *bit = called(index, *bit));
        let ended = catch_unwind(AssertUnwindSafe(|| view.part_mut(..part.len() / 2).fill_with(|index| answer(index, true))));
        assert_eq!(ended.is_ok(), part.len() / 2 <= calls);
        list[part.clone()][..part.len() / 2].iter_mut().enumerate().take(calls).for_each(|(index, bit)| *bit = called(index, true));
        let made = BitSlice::<T, O>::from_slice(&memory);
        assert!((0..made.len()).all(|index| made[index] == list[index]));
    }
}

fn assert_walks<T: BitStore, O: SliceOrder>(elements: &[T]) {
    let whole = BitSlice::<T, O>::from_slice(elements);
    let bits: Vec<bool> = (0..whole.len()).map(|index| whole[index]).collect();
    for start in edges(bits.len()) {
        for end in edges(bits.len()).filter(|&end| end >= start) {
            assert_refills::<T, O>(elements, &bits, start..end);
            let (view, list) = (whole.into_part(start..end), &bits[start..end]);
            for wanted in [true, false] {
                let places: Vec<usize> = (0..list.len()).filter(|&index| list[index] == wanted).collect();
                if wanted {
                    assert_places(view.iter_ones(), &places);
                } else {
                    assert_places(view.iter_zeros(), &places);
                }
            }
            assert_walk(view.iter(), list, |bit| *bit);
            assert_walk(view.iter().by_vals(), list, |bit| bit);
            assert_walk(view.iter().by_refs(), list, |bit| *bit);
            assert_walk(BitVec::<T, O>::from_bitslice(view).into_iter(), list, |bit| bit);
            let (mut walk, mut rest) = (view.iter().by_vals(), list.iter());
            assert_eq!((walk.next(), walk.next_back()), (rest.next().copied(), rest.next_back().copied()));
            assert_walk(walk, rest.as_slice(), |bit| bit);
        }
    }
}

#[test]
fn walks_by_elements_are_those_of_lists() {
    let words = [0x9E37_79B9_7F4A_7C15u64, 0x0000_0400_0000_0001, 0, 0xFFFF_FFFF_FFFF_FFFB];
    let bytes: Vec<u8> = words.iter().flat_map(|word| word.to_le_bytes()).collect();
    let hook = std::panic::take_hook();
    std::panic::set_hook(Box::new(|_| {}));
    let done = catch_unwind(|| {
        assert_walks::<u8, Lsb0>(&bytes);
        assert_walks::<u8, Msb0>(&bytes);
        assert_walks::<u8, HiLo>(&bytes);
        assert_walks::<u16, Msb0>(&words.map(|word| [word as u16, (word >> 48) as u16]).concat());
        assert_walks::<u32, Lsb0>(&words.map(|word| [word as u32, (word >> 32) as u32]).concat());
        assert_walks::<u64, Lsb0>(&words);
        assert_walks::<u64, Msb0>(&words);
        assert_walks::<u64, HiLo>(&words);
        assert_walks::<u128, Msb0>(&words.map(|word| (word as u128) << 70 | word as u128));
    });
    std::panic::set_hook(hook);
    if let Err(reason) = done {
        std::panic::resume_unwind(reason);
    }
}
