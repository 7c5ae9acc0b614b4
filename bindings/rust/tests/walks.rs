//! Walks and splits past their ends: nothing comes from there, nor from the other end, and nothing is left. And what the
//! predicate of a split is asked.

use fehimbary::prelude::*;

const BYTES: [u8; 3] = [0xA6, 0x3C, 0x59];

/// Walks give nothing once they were gone through from one end, or passed the greatest number of items.
fn assert_ends<I: DoubleEndedIterator>(walk: impl Fn() -> I) {
    let walks: [fn(&mut I); 4] = [
        |walk| walk.by_ref().for_each(drop),
        |walk| walk.rev().for_each(drop),
        |walk| assert!(walk.nth(usize::MAX).is_none()),
        |walk| assert!(walk.nth_back(usize::MAX).is_none()),
    ];
    for go in walks {
        let mut walk = walk();
        go(&mut walk);
        for _ in 0..10 {
            assert!(walk.next().is_none() && walk.next_back().is_none());
            assert!(walk.nth(0).is_none() && walk.nth_back(0).is_none());
        }
        assert!(matches!(walk.size_hint(), (0, None | Some(0))));
    }
}

#[test]
fn nothing_comes_behind_the_end_of_a_walk() {
    let view = BitSlice::<u8, Msb0>::from_slice(&BYTES).into_part(3..21);
    assert_ends(|| view.iter());
    assert_ends(|| view.iter().by_refs());
    assert_ends(|| view.iter().by_vals());
    assert_ends(|| view.iter_ones());
    assert_ends(|| view.iter_zeros());
    assert_ends(|| view.domain().values());
    assert_ends(|| view.bit_domain().parts());
    assert_ends(|| view.chunks(3));
    assert_ends(|| view.chunks_exact(4));
    assert_ends(|| view.rchunks(4));
    assert_ends(|| view.rchunks_exact(4));
    assert_ends(|| view.windows(3));
}

/// A call on a walk or on a split.
#[derive(Clone, Copy)]
enum Call {
    Next,
    NextBack,
    Nth,
    NthBack,
}

/// Whether a call lends something.
macro_rules! lends {
    ($walk:expr, $call:expr) => {
        match $call {
            Call::Next => $walk.next_mut().is_some(),
            Call::NextBack => $walk.next_back_mut().is_some(),
            Call::Nth => $walk.nth_mut(usize::MAX).is_some(),
            Call::NthBack => $walk.nth_back_mut(usize::MAX).is_some(),
        }
    };
}

/// Asserts that a walk lends so many items by calls from either end, none by those that pass the greatest number, and then
/// none from either end.
macro_rules! assert_lends {
    ($view:expr, $name:ident($($size:expr)?), $count:expr) => {
        for (first, count) in [(Call::Next, $count), (Call::NextBack, $count), (Call::Nth, 0), (Call::NthBack, 0)] {
            let mut walk = $view.$name($($size)?);
            for number in 0..count + 20 {
                let call = if number <= count { first } else { [Call::Next, Call::NextBack][number % 2] };
                assert_eq!(lends!(walk, call), number < count);
            }
            assert!(walk.is_empty());
        }
    };
}

#[test]
fn nothing_is_lent_behind_the_end_of_a_walk() {
    let mut bytes = BYTES;
    let mut view = BitSliceMut::<u8, Lsb0>::from_slice_mut(&mut bytes).into_part(3..11);
    assert_lends!(view, lending_iter_mut(), 8);
    assert_lends!(view, lending_chunks_exact_mut(3), 2);
    assert_lends!(view, lending_rchunks_exact_mut(3), 2);
    assert_lends!(view, lending_chunks_mut(3), 3);
    assert_lends!(view, lending_rchunks_mut(3), 3);
}

/// Asserts that a split of 0, 1, 0 at its one gives two pieces from either end, and then nothing from either end.
macro_rules! assert_splits {
    ($view:expr, $name:ident, $next:ident, $next_back:ident) => {
        for from_back in [false, true] {
            let mut pieces = $view.$name(|_, bit| *bit);
            for call in 0..22 {
                let comes = if (call < 12) == from_back { pieces.$next_back().is_some() } else { pieces.$next().is_some() };
                assert_eq!(comes, call < 2);
            }
        }
    };
}

/// Asserts that a split into so many pieces at most gives these, two at most, and then nothing.
macro_rules! assert_splits_at_most {
    ($view:expr, $name:ident, $next:ident) => {
        for limit in 0..4 {
            let mut pieces = $view.$name(limit, |_, bit| *bit);
            for call in 0..12 {
                assert_eq!(pieces.$next().is_some(), call < limit.min(2));
            }
        }
    };
}

#[test]
fn nothing_comes_behind_the_end_of_a_split() {
    let mut bytes = [0x02];
    let mut view = BitSliceMut::<u8, Lsb0>::from_slice_mut(&mut bytes).into_part(0..3);
    assert_splits!(view.as_ref(), split, next, next_back);
    assert_splits!(view.as_ref(), split_inclusive, next, next_back);
    assert_splits!(view.as_ref(), rsplit, next, next_back);
    assert_splits!(view, lending_split_mut, next_mut, next_back_mut);
    assert_splits!(view, split_mut, next, next_back);
    assert_splits!(view, lending_split_inclusive_mut, next_mut, next_back_mut);
    assert_splits!(view, split_inclusive_mut, next, next_back);
    assert_splits!(view, lending_rsplit_mut, next_mut, next_back_mut);
    assert_splits!(view, rsplit_mut, next, next_back);
    assert_splits_at_most!(view.as_ref(), splitn, next);
    assert_splits_at_most!(view.as_ref(), rsplitn, next);
    assert_splits_at_most!(view, lending_splitn_mut, next_mut);
    assert_splits_at_most!(view, splitn_mut, next);
    assert_splits_at_most!(view, lending_rsplitn_mut, next_mut);
    assert_splits_at_most!(view, rsplitn_mut, next);
}

// The bits are 0, 1, 0, 0, 1.
#[test]
fn a_split_asks_about_the_indices_in_what_is_left() {
    let view = BitSlice::<u8, Lsb0>::from_slice(&[0x90]).into_part(3..8);
    for (calls, indices) in [(1, &[0, 1][..]), (2, &[0, 1, 0, 1, 2]), (3, &[0, 1, 0, 1, 2])] {
        let mut asked = Vec::new();
        let pieces = view.split(|index, bit| {
            asked.push(index);
            *bit
        });
        pieces.take(calls).for_each(drop);
        assert_eq!(asked, indices);
    }
}

/// Where the pieces of six zeros stand and how many bits they have, from the front, or by turns from the front and the back,
/// where the predicate says yes at each second asking.
fn places_of_six(by_turns: bool) -> [Option<(usize, usize)>; 6] {
    let mut asked = 0;
    let mut pieces = BitSlice::<u8, Lsb0>::from_slice(&[0]).into_part(0..6).split(|_, _| {
        asked += 1;
        asked % 2 == 0
    });
    [0, 1, 0, 1, 0, 1].map(|turn| {
        let piece = if by_turns && turn == 1 { pieces.next_back() } else { pieces.next() };
        piece.map(|piece| (piece.window().start, piece.len()))
    })
}

#[test]
fn a_split_asks_its_predicate_through_its_own_states() {
    assert_eq!(places_of_six(false), [Some((0, 1)), Some((2, 1)), Some((4, 1)), Some((6, 0)), None, None]);
    assert_eq!(places_of_six(true), [Some((0, 1)), Some((5, 1)), Some((2, 1)), Some((4, 0)), None, None]);
}
