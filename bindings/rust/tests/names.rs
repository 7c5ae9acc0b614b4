//! Names that the library has within itself: a user's traits may have them too.

use fehimbary::prelude::*;
use std::ops::Range;

/// Calls of a user's own.
trait Own {
    fn narrow(&mut self, range: Range<usize>) -> usize;
    fn edit_shown(&mut self) -> usize;
    fn for_each_piece_mut(&mut self) -> usize;
    fn for_each_piece_of(&mut self) -> usize;
    fn combine_bits(&mut self) -> usize;
    fn combine_within(&mut self) -> usize;
    fn ask(&self) -> usize;
    fn step(&self) -> usize;
    fn limited_step(&self) -> usize;
    fn set_proved(&mut self) -> usize;
}

impl Own for BitSliceMut<'_, u8, Lsb0> {
    fn narrow(&mut self, range: Range<usize>) -> usize {
        range.len()
    }

    fn edit_shown(&mut self) -> usize {
        1
    }

    fn for_each_piece_mut(&mut self) -> usize {
        2
    }

    fn for_each_piece_of(&mut self) -> usize {
        3
    }

    fn combine_bits(&mut self) -> usize {
        4
    }

    fn combine_within(&mut self) -> usize {
        5
    }

    fn ask(&self) -> usize {
        6
    }

    fn step(&self) -> usize {
        7
    }

    fn limited_step(&self) -> usize {
        8
    }

    fn set_proved(&mut self) -> usize {
        9
    }
}

#[test]
fn a_users_traits_have_names_of_the_library_within_itself() {
    let mut bytes = [0u8; 6];
    let mut bits = bytes.view_bits_mut::<Lsb0>();
    assert_eq!(bits.narrow(3..9), 6);
    let called = [
        bits.edit_shown(),
        bits.for_each_piece_mut(),
        bits.for_each_piece_of(),
        bits.combine_bits(),
        bits.combine_within(),
        bits.ask(),
        bits.step(),
        bits.limited_step(),
        bits.set_proved(),
    ];
    assert_eq!(called, [1, 2, 3, 4, 5, 6, 7, 8, 9]);
    assert_eq!(bits.len(), 48);
}
