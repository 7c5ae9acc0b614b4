//! What a program of `bitvec` finds: macros, plain calls, ranges, conversions, operators, comparisons, texts and streams.

use fehimbary::prelude::*;
use std::collections::HashMap;
use std::io::{Read, Write};

const LIST: [bool; 11] = [true, false, true, true, false, false, true, false, true, true, true];

/// Asserts that bits are those of the list, read one by one.
fn assert_list<T: BitStore, O: SliceOrder>(bits: BitSlice<'_, T, O>) {
    assert!((0..LIST.len()).all(|index| bits[index] == LIST[index]) && bits.len() == LIST.len(), "{bits}");
}

#[test]
fn macros_make_the_bits_of_a_list() {
    assert_list(bits![1, 0, 1, 1, 0, 0, 1, 0, 1, 1, 1]);
    assert_list(bits![u8, Lsb0; 1, 0, 1, 1, 0, 0, 1, 0, 1, 1, 1]);
    assert_list(bits![u16, Msb0; 1, 0, 1, 1, 0, 0, 1, 0, 1, 1, 1]);
    assert_list(bits![u128, HiLo; 1, 0, 1, 1, 0, 0, 1, 0, 1, 1, 1]);
    assert_list(bits![u8, HiLo; 1, 0, 1, 1, 0, 0, 1, 0, 1, 1, 1]);
    assert_list(bitvec![u32, Msb0; 1, 0, 1, 1, 0, 0, 1, 0, 1, 1, 1].as_bitslice());
    const ARRAY: BitArr!(for 11, in u8, HiLo) = bitarr![u8, HiLo; 1, 0, 1, 1, 0, 0, 1, 0, 1, 1, 1];
    assert_list(ARRAY.part(..11));
    assert_eq!(ARRAY.len(), 16);

    assert!(bits![].is_empty() && bits![u8, Msb0;].is_empty() && bitvec![].is_empty());
    const BITS: usize = 9;
    assert_eq!(bits![u8, Lsb0; 1; BITS].count_ones(), BITS);
    assert_eq!(bitvec![1; BITS], bits![1; BITS]);
    assert_eq!(bitarr![u8, Lsb0; 1; BITS].into_inner(), [0xFF, 0xFF]);
    let bits = bits![mut 0, 1, 0];
    bits.invert();
    assert_eq!(bits, bits![1, 0, 1]);
}

#[test]
fn ranges_are_of_six_kinds() {
    let view = BitVec::<u8, Msb0>::from_bools(&LIST);
    assert_eq!(view.part(2..5), bits![1, 1, 0]);
    assert_eq!(view.part(2..=5), bits![1, 1, 0, 0]);
    assert_eq!(view.part(..3), bits![1, 0, 1]);
    assert_eq!(view.part(..=3), bits![1, 0, 1, 1]);
    assert_eq!(view.part(8..), bits![1, 1, 1]);
    assert_eq!(view.part(..), LIST);
    let mut copy = view.clone();
    copy.copy_within(8.., 0);
    copy.part_mut(..=1).fill(false);
    assert_eq!(copy.drain(3..).count(), 8);
    assert_eq!(copy, bits![0, 0, 1]);
    for refused in [std::panic::catch_unwind(|| view.part(..=usize::MAX)), std::panic::catch_unwind(|| view.part(12..))] {
        assert!(refused.is_err());
    }
}

#[test]
fn sequences_change_as_those_of_std() {
    let (mut bits, mut list) = (BitVec::<u8, Lsb0>::from_bools(&LIST), LIST.to_vec());
    bits.insert(3, false);
    list.insert(3, false);
    bits.extend_from_within(2..6);
    list.extend_from_within(2..6);
    assert!(bits.splice(1..4, [true; 9]).eq(list.splice(1..4, [true; 9])));
    bits.resize_with(30, |index| index % 4 == 1);
    list.extend((list.len()..30).map(|index| index % 4 == 1));
    assert_eq!(bits, list[..]);
    assert_eq!(bits.split_off(21), list.split_off(21)[..]);
    bits.dedup();
    list.dedup();
    assert_eq!(bits, list[..]);
    assert!(bits.clone().into_iter().rev().eq(list.iter().rev().copied()));
    bits.extend(&LIST);
    bits.extend(bits![1, 0].iter());
    bits.extend([0x81u8]);
    list.extend(LIST);
    list.extend([true, false, true, false, false, false, false, false, false, true]);
    assert_eq!(bits, list[..]);
    assert_eq!(bits.repeated(), list.repeat(2)[..]);
    let len = bits.len();
    bits.set_uninitialized(true);
    bits.shift_start(0);
    assert_eq!((bits.as_raw_slice().last().copied().map(|last| last >> (len % 8)), bits.len()), (Some(0xFF >> (len % 8)), len));
    assert_eq!(bits.leak(), list[..].iter().collect::<BitVec>());
}

trait Repeated {
    fn repeated(&self) -> BitVec<u8, Lsb0>;
}

impl Repeated for BitVec<u8, Lsb0> {
    fn repeated(&self) -> BitVec<u8, Lsb0> {
        self.as_bitslice().repeat(2)
    }
}

#[test]
fn a_moved_sequence_is_aligned() {
    let mut bits = BitSlice::<u8, Msb0>::from_slice(&[0x0F, 0xF0]).part(3..11).to_bitvec();
    bits.force_align();
    assert_eq!(bits.as_raw_slice(), [0b0111_1111]);
    bits.set_elements(0xA0);
    assert_eq!(bits, bits![1, 0, 1, 0, 0, 0, 0, 0]);
}

#[test]
fn conversions_keep_the_bits() {
    let bits: BitVec<u8, Msb0> = vec![0x12, 0x34].into();
    assert_eq!(Vec::from(bits.clone()), [0x12, 0x34]);
    assert_eq!(bits, BitVec::<u8, Msb0>::from([0x12, 0x34]));
    assert_eq!(bits, BitVec::<u8, Msb0>::from(vec![0x12u8, 0x34].into_boxed_slice()));
    let array = BitArray::<u8, Msb0, 2>::try_from(bits.as_bitslice()).expect("as many bits");
    assert_eq!(array.into_inner(), [0x12, 0x34]);
    assert!(BitArray::<u8, Msb0, 3>::try_from(bits.as_bitslice()).is_err());
    assert_eq!(BitArray::<u8, Msb0, 1>::try_from(bits.clone()), Err(bits.clone()));
    assert_eq!(BitVec::from(array), bits);
    let boxed: BitBox<u8, Msb0> = bitbox![u8, Msb0; 0, 1, 1];
    assert_eq!(boxed.into_bitvec(), bitvec![u8, Msb0; 0, 1, 1]);
    let mut grown = BitVec::<u8, Msb0>::with_capacity(99);
    grown.push(true);
    assert_eq!(grown.into_boxed_bitslice().capacity(), 8);
    assert!(array.into_iter().eq(bits.clone()));
    let numbers: BitVec<u8, Msb0> = [0x12, 0x34].into_iter().collect();
    assert_eq!(numbers, bits);
    assert_eq!(bits.iter().collect::<BitVec<u8, Msb0>>(), bits);
    assert_eq!([-2i16].view_bits::<Lsb0>(), [0xFFFEu16].view_bits::<Lsb0>());
    assert_eq!([1u16].bits().first_one(), [1u16].as_bits::<Lsb0>().first_one());
}

#[test]
fn operators_and_comparisons_are_of_any_kinds() {
    let (a, b) = (bitvec![0, 0, 1, 1], bits![0, 1, 0, 1]);
    assert_eq!(a.clone() & b, bits![0, 0, 0, 1]);
    assert_eq!(&a | &b, bits![u8, Msb0; 0, 1, 1, 1]);
    assert_eq!(b ^ &a, bitvec![u16, Lsb0; 0, 1, 1, 0]);
    assert_eq!(!&a, bitvec![1, 1, 0, 0]);
    assert_eq!(!b, bits![1, 0, 1, 0]);
    assert_eq!((BitArray::<u8>::new([6]) & BitArray::<u8>::new([3])).into_inner(), [2]);
    let mut short = a.clone();
    short &= bits![1, 1, 1];
    assert_eq!(short, bits![0, 0, 1, 0]);
    assert!(a < bits![u8, Msb0; 0, 1] && a > bits![0, 0, 1] && a != bits![0, 0, 1]);
    let sorted: HashMap<BitVec, u8> = [(a.clone(), 1)].into_iter().collect();
    assert_eq!(sorted.get(&a), Some(&1));
    assert_eq!(format!("{:b} {:x} {:X}", bits![0, 1, 0], [0x3Cu8].view_bits::<Msb0>(), [0x3Cu8].view_bits::<Msb0>()), "[010] [3c] [3C]");
}

#[test]
fn texts_have_the_prefix_of_their_base() {
    let bytes = [0x3Cu8, 0x0A, 0xFF];
    let view = bytes.view_bits::<Msb0>();
    assert_eq!(format!("{:#x}", view), "[\n    0x3c,\n    0x0a,\n    0xff,\n]");
    assert_eq!(format!("{:#X}", view.part(4..16)), "[\n    0xC,\n    0x0A,\n]");
    assert_eq!(format!("{:#b}", view.part(10..17)), "[\n    0b001010,\n    0b1,\n]");
    assert_eq!(format!("{:#o}", view.part(5..7).to_bitvec()), "[\n    0o2,\n]");
    assert_eq!(format!("{:#b}", [0x1234u16].view_bits::<Lsb0>().part(2..6)), "[\n    0b1011,\n]");
    assert_eq!(format!("{:#x}", bits![u8, Lsb0;]), "[]");
}

#[test]
fn bytes_are_written_at_the_end_and_read_from_the_front() {
    let mut bits = bitvec![u16, Lsb0; 1, 0, 1];
    bits.write_all(&[0x12, 0x34]).expect("memory");
    assert_eq!(bits.part(3..11).load_be::<u8>(), 0x12);
    assert_eq!(bits.part(11..19).load_be::<u8>(), 0x34);
    assert!(bits.pop().is_some() && bits.remove(0));
    let mut read = [0u8; 4];
    let expected = [bits.part(..8).load_be::<u8>(), bits.part(8..16).load_be::<u8>()];
    let mut view = bits.as_bitslice();
    assert_eq!((view.read(&mut read).ok(), view.len()), (Some(2), 1));
    assert_eq!(read[..2], expected);
    assert_eq!((bits.read(&mut read[..1]).ok(), bits.len(), read[0]), (Some(1), 9, expected[0]));
}
