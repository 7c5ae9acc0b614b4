//! The first code of the repository's README.

#[test]
fn a_header_is_written() {
    use fehimbary::prelude::*;

    let mut header = [0u8; 4];
    let mut bits = header.view_bits_mut::<Msb0>();
    bits.part_mut(3..7).store_be::<u8>(5);
    bits.part_mut(7..16).store_be::<u16>(300);
    assert_eq!(header, [0x0B, 0x2C, 0, 0]);
}
