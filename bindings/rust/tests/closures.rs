//! Closures that edit a view: one that panics leaves the view where it stood, and one that puts another view in its place ends the
//! call by a panic at the caller's line.

use fehimbary::index::Window;
use fehimbary::prelude::*;
use std::cell::RefCell;
use std::panic::{catch_unwind, AssertUnwindSafe, Location};
use std::sync::{Mutex, PoisonError};

const BYTES: [u8; 6] = [0xA6, 0x3C, 0x59, 0x0F, 0xE1, 0x7D];

type Written<'a> = BitSliceMut<'a, u8, Msb0>;

/// The hook of panics is one for all threads.
static HOOK: Mutex<()> = Mutex::new(());

/// The file, the line and the message of the panic by which a call ends.
fn panic_of(call: impl FnOnce()) -> (String, u32, String) {
    let _alone = HOOK.lock().unwrap_or_else(PoisonError::into_inner);
    // Tests of other threads panic while this hook is set, so each thread has a place of its own.
    thread_local!(static PLACE: RefCell<Option<(String, u32)>> = const { RefCell::new(None) });
    std::panic::set_hook(Box::new(|info| {
        let place = info.location().expect("a place");
        PLACE.set(Some((place.file().to_string(), place.line())));
    }));
    let ended = catch_unwind(AssertUnwindSafe(call)).expect_err("the call ends by a panic");
    let _ = std::panic::take_hook();
    let (file, line) = PLACE.take().expect("a panic");
    let message = ended.downcast_ref::<String>().cloned().unwrap_or_else(|| ended.downcast_ref::<&str>().expect("a message").to_string());
    (file, line, message)
}

/// Writes to a piece, and panics at the piece `at`.
fn stop(number: usize, at: usize, piece: &mut Written<'_>) {
    piece.fill(true);
    assert!(number != at, "mine");
}

/// Calls that edit parts by closures, which panic at one piece.
const PANICKING: [fn(&mut Written<'_>, usize); 12] = [
    |bits, _| bits.edit_with(8..16, |piece| stop(0, 0, piece)),
    |bits, _| _ = bits.edit_halves(20, |piece| stop(0, 0, piece), |_| ()),
    |bits, _| _ = bits.edit_halves(20, |_| (), |piece| stop(0, 0, piece)),
    |bits, at| bits.for_each_chunk_mut(7, |number, piece| stop(number, at, piece)),
    |bits, at| bits.for_each_rchunk_mut(7, |number, piece| stop(number, at, piece)),
    |bits, at| bits.for_each_chunk_exact_mut(7, |number, piece| stop(number, at, piece)),
    |bits, at| bits.for_each_rchunk_exact_mut(7, |number, piece| stop(number, at, piece)),
    |bits, at| bits.for_each_split_mut(|_, bit| *bit, |number, piece| stop(number, at, piece)),
    |bits, at| bits.for_each_split_inclusive_mut(|_, bit| *bit, |number, piece| stop(number, at, piece)),
    |bits, at| bits.for_each_rsplit_mut(|_, bit| *bit, |number, piece| stop(number, at, piece)),
    |bits, at| bits.for_each_splitn_mut(9, |_, bit| *bit, |number, piece| stop(number, at, piece)),
    |bits, at| bits.for_each_rsplitn_mut(9, |_, bit| *bit, |number, piece| stop(number, at, piece)),
];

#[test]
fn a_closure_that_panics_leaves_the_view_where_it_stood() {
    for at in 0..3 {
        for call in PANICKING {
            let mut bytes = BYTES;
            let mut whole = BitSliceMut::<u8, Msb0>::from_slice_mut(&mut bytes);
            let mut bits = whole.part_mut(3..43);
            let window = bits.window();
            let (_, _, message) = panic_of(|| call(&mut bits, at));
            assert_eq!(message, "mine");
            assert_eq!((bits.window(), bits.len()), (window, 40));
            // The view works on, and writes nothing outside its part.
            bits.fill(true);
            assert_eq!(bytes, [0xBF, 0xFF, 0xFF, 0xFF, 0xFF, 0xFD]);
        }
    }
}

#[test]
fn a_closure_within_a_closure_leaves_both_views_where_they_stood() {
    let mut bytes = BYTES;
    let mut bits = BitSliceMut::<u8, Msb0>::from_slice_mut(&mut bytes);
    let (_, _, message) = panic_of(|| bits.edit_with(8..40, |part| part.for_each_chunk_mut(5, |number, _| assert!(number != 2, "mine"))));
    assert_eq!(message, "mine");
    assert_eq!(bits.len(), 48);
    bits.edit_with(8..40, |part| {
        let ended = catch_unwind(AssertUnwindSafe(|| part.edit_with(4..6, |_| panic!("mine"))));
        assert!(ended.is_err());
        assert_eq!(part.window(), Window { start: 8, len: 32 });
    });
    assert_eq!(bytes, BYTES);
}

#[test]
fn a_view_in_the_place_of_the_closures_own_stays_as_it_is_where_the_closure_panics() {
    let mut bytes = BYTES;
    let mut bits = BitSliceMut::<u8, Msb0>::from_slice_mut(&mut bytes);
    let (_, _, message) = panic_of(|| {
        bits.edit_with(3..9, |piece| {
            *piece = other();
            panic!("mine")
        })
    });
    assert_eq!(message, "mine");
    assert_eq!(bits.window(), Window { start: 0, len: 72 });
    assert_eq!(bits.count_ones(), 0);
    assert_eq!(bytes, BYTES);
}

/// Another view, which lives as long as a closure wants.
fn other() -> Written<'static> {
    BitSliceMut::from_slice_mut(Box::leak(Box::new([0u8; 9])))
}

/// Sees that a call whose closure puts another view in the place of its own ends by a panic at the call, and leaves the bytes.
#[track_caller]
fn assert_refused(call: impl FnOnce(&mut Written<'_>)) {
    let from = Location::caller().line();
    let mut bytes = BYTES;
    let mut bits = BitSliceMut::<u8, Msb0>::from_slice_mut(&mut bytes);
    let (file, line, message) = panic_of(|| call(&mut bits));
    assert_eq!(message, "an edit needs that its closure leaves the view in its place");
    assert!(file == file!() && (from..from + 8).contains(&line), "{file}:{line}");
    assert_eq!(bytes, BYTES);
}

#[test]
fn a_view_in_the_place_of_the_closures_own_is_refused_at_the_callers_line() {
    assert_refused(|bits| bits.edit_with(3..9, |piece| *piece = other()));
    assert_refused(|bits| _ = bits.edit_halves(9, |piece| *piece = other(), |_| panic!("this isn't called")));
    assert_refused(|bits| _ = bits.edit_halves(9, |_| (), |piece| *piece = other()));
    assert_refused(|bits| {
        bits.for_each_chunk_mut(5, |number, piece| {
            if number == 2 {
                *piece = other();
            }
        })
    });
    assert_refused(|bits| bits.for_each_rchunk_exact_mut(5, |_, piece| *piece = BitSliceMut::default()));
    assert_refused(|bits| bits.for_each_split_mut(|_, bit| *bit, |_, piece| *piece = other()));
    assert_refused(|bits| bits.for_each_rsplitn_mut(3, |_, bit| *bit, |_, piece| *piece = other()));
}

#[test]
fn a_view_of_elements_in_the_place_of_the_closures_own_is_refused_at_the_callers_line() {
    assert_refused(|bits| {
        let elements = bits.part_mut(0..48).into_slice();
        drop(EditElements::<u8, Msb0>::edit_elements(elements, |view| *view = BitSliceMut::default()))
    });
}
