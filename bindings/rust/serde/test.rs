//! What serde writes and reads.

use fehimbary::prelude::*;
use serde::de::DeserializeOwned;

const WRITTEN: &str = r#"{"order":"bitvec::order::Msb0","head":{"width":8,"index":3},"bits":9,"data":[30,160]}"#;

fn read<B: DeserializeOwned>(text: &str) -> Option<B> {
    serde_json::from_str(text).ok()
}

#[test]
fn bits_are_written_as_bitvec_writes_them() {
    let mut bytes = [0xFEu8, 0xAF];
    let view = bytes.view_bits::<Msb0>().part(3..12);
    assert_eq!(serde_json::to_string(&view).expect("a text"), WRITTEN);
    assert_eq!(serde_json::to_string(&view.to_bitvec().as_bitslice()).expect("a text"), WRITTEN);
    assert_eq!(serde_json::to_string(&bytes.view_bits_mut::<Msb0>().part_mut(3..12)).expect("a text"), WRITTEN);
    let array = bitarr![u16, Lsb0; 1; 16];
    let text = r#"{"order":"bitvec::order::Lsb0","head":{"width":16,"index":0},"bits":16,"data":[65535]}"#;
    assert_eq!(serde_json::to_string(&array).expect("a text"), text);
    assert_eq!(read(text), Some(array));
}

#[test]
fn what_was_written_is_read() {
    let bits: BitVec<u8, Msb0> = read(WRITTEN).expect("bits");
    assert_eq!(bits, bits![1, 1, 1, 1, 0, 1, 0, 1, 0]);
    let in_order = r#"["bitvec::order::Msb0",[8,3],9,[30,160]]"#;
    assert_eq!(read(in_order), Some(bits));
    for len in 0..70 {
        let bits: BitVec<u32, HiLo> = (0..len).map(|index| index % 3 == 0).collect();
        assert_eq!(read(&serde_json::to_string(&bits).expect("a text")), Some(bits));
    }
    let empty = WRITTEN.replace(":9", ":0").replace("30,160", "");
    assert_eq!(read(&empty), Some(BitVec::<u8, Msb0>::new()));
}

#[test]
fn what_isnt_the_elements_of_the_bits_is_refused() {
    for (from, to) in [
        ("Msb0", "Lsb0"),
        ("\"width\":8", "\"width\":16"),
        ("\"index\":3", "\"index\":8"),
        ("\"index\":3", "\"index\":255"),
        ("\"index\":3},\"bits\":9", "\"index\":8},\"bits\":8"),
        ("\"bits\":9", "\"bits\":14"),
        ("\"bits\":9", "\"bits\":5"),
        ("\"bits\":9", "\"bits\":0"),
        ("\"bits\":9", "\"bits\":18446744073709551615"),
        ("30,160", "30"),
        ("30,160", "30,160,0"),
        ("30,160", "30,256"),
        ("\"bits\":9,", ""),
        ("\"bits\":9,", "\"bits\":9,\"bits\":9,"),
    ] {
        let text = WRITTEN.replace(from, to);
        assert!(text != WRITTEN && read::<BitVec<u8, Msb0>>(&text).is_none(), "{text}");
    }
    let text = WRITTEN.replace("\"bits\":9,", "\"more\":[1],\"bits\":9,");
    assert!(read::<BitVec<u8, Msb0>>(&text).is_some());
    let all = r#"["bitvec::order::Msb0",[8,0],16,[30,160]]"#;
    assert_eq!(read(all), Some(BitArray::<u8, Msb0, 2>::new([30, 160])));
    for text in [all.replace("16,", "15,"), all.replace("[8,0],16", "[8,1],15"), all.replace(",160", "").replace("16,", "8,")] {
        assert!(read::<BitArray<u8, Msb0, 2>>(&text).is_none(), "{text}");
    }
}
