//! The examples of the README of `bitvec` 1.1.1, as they are written with this package.

use fehimbary::prelude::*;

#[test]
fn elements_are_viewed_and_split() {
    let arr = bitarr![u32, Lsb0; 0; 80];
    assert_eq!(arr.len(), 96);
    let bits = bits![u16, Msb0; 0; 40];
    assert_eq!(bits.len(), 40);
    let data = 0x2021u16;
    assert_eq!(data.view_bits::<Msb0>().count_ones(), 3);
    let data = [0xA5u8, 0x3C];
    let bits = data.view_bits::<Lsb0>();
    let (head, rest) = bits.split_at(4);
    assert_eq!(head, bits.part(..4));
    assert_eq!(rest, bits.part(4..));
}

#[test]
fn parts_are_writable() {
    let mut data = [0u8; 2];
    let mut bits = data.view_bits_mut::<Lsb0>();
    // l and r each own one byte, and the nibbles of a byte share it.
    let (l, r) = bits.split_at_mut(8);
    let ((a, b), (c, d)) = (l.split_at_mut(4), r.split_at_mut(4));
    a.set(0, true);
    b.set(1, true);
    c.set(2, true);
    d.set(3, true);
    assert!(bits[0]);
    assert!(bits[5]);
    assert!(bits[10]);
    assert!(bits[15]);
    assert_eq!(data, [0x21u8, 0x84]);
}

#[test]
fn views_store_integers() {
    let eight = [0u8, 4, 8, 12, 16, 20, 24, 28];
    let mut five = [0u8; 5];
    for (slot, byte) in five.view_bits_mut::<Msb0>().chunks_mut(5).zip(eight.iter().copied()) {
        slot.store_be(byte);
        assert_eq!(slot.load_be::<u8>(), byte);
    }
    assert_eq!(five, [0b00000_001, 0b00_01000_0, 0b1100_1000, 0b0_10100_11, 0b000_11100]);
}

#[test]
fn sequences_grow() {
    let mut bv = bitvec![u8, Msb0;];
    bv.push(false);
    bv.push(true);
    bv.extend([false; 4].iter());
    bv.extend(15u8.view_bits::<Lsb0>().part(..4));
    assert_eq!(bv.as_raw_slice(), &[0b01_0000_11, 0b11_000000]);
}

#[test]
fn a_bit_is_written_through_a_reference() {
    let bits = bits![mut 0];
    let mut bit = bits.get_mut(0).unwrap();
    assert!(!*bit);
    *bit = true;
    assert!(*bit);
    drop(bit);
    assert!(bits[0]);
}
