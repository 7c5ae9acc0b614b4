//! Each condition that a public call tests, broken: the call panics with the condition, and the memory is as before.
#![allow(clippy::reversed_empty_ranges, deprecated)]

mod list;

use fehimbary::cells::{Cells, CellsRead, Exclusive, Shared};
use fehimbary::engine::{self, BitOp, End, Rest};
use fehimbary::index::{Part, Window};
use fehimbary::memory::Global;
use fehimbary::prelude::*;
use fehimbary::record::{self, Endian};
use fehimbary::run::{run_halves, Op, Reply, Side, Step};
use fehimbary::slice::*;
use fehimbary::{domain::*, elements::*, in_place, walk, words};
use std::collections::BTreeSet;
use std::panic::{catch_unwind, AssertUnwindSafe};

const BYTES: [u8; 6] = [0xA6, 0x3C, 0x59, 0x0F, 0xE1, 0x7D];
/// A window inside the bytes, one that ends behind them, and one of another length.
const IN: Window = Window { start: 3, len: 20 };
const OUT: Window = Window { start: 44, len: 5 };
const SHORT: Window = Window { start: 3, len: 19 };
/// A part that isn't one.
const PART: Part = Part { element: 6, from: 0, to: 1 };
/// How conditions end that nothing here can break: no address space has so many elements, and each integer has a bit.
const BOUNDLESS: [&str; 2] = ["<= MAX_BITS", "0 < I.BITS"];

type Written<'a> = BitSliceMut<'a, u8, Msb0>;
type Read<'a> = BitSlice<'a, u8, Msb0>;

/// The conditions that were seen to be tested, and what went wrong.
#[derive(Default)]
struct Seen {
    conditions: BTreeSet<String>,
    wrong: Vec<String>,
}

impl Seen {
    /// Sees that a call on the bytes is refused with a condition, and leaves them. The message has no bits of a view.
    fn refuse(&mut self, name: &str, call: impl FnOnce(&mut [u8; 6])) {
        let mut bytes = BYTES;
        let ended = catch_unwind(AssertUnwindSafe(|| call(&mut bytes)));
        let message = ended.err().and_then(|panic| panic.downcast_ref::<String>().cloned());
        let condition = message.as_deref().unwrap_or_default().split(':').next().unwrap_or_default();
        let shows_bits = message.as_deref().unwrap_or_default().contains('[');
        if condition.starts_with(&format!("{name} needs that ")) && bytes == BYTES && !shows_bits {
            self.conditions.insert(condition.to_string());
        } else {
            self.wrong.push(format!("{name}: {message:?}, and the bytes are {bytes:X?}"));
        }
    }
}

fn shown(bytes: &[u8; 6]) -> Read<'_> {
    BitSlice::from_slice(bytes)
}

fn view(bytes: &mut [u8; 6]) -> Written<'_> {
    BitSliceMut::from_slice_mut(bytes)
}

fn cells(bytes: &mut [u8; 6]) -> Exclusive<'_, u8> {
    Exclusive::new(bytes)
}

/// `$name(|bytes| $call)`: the call is refused.
macro_rules! refused {
    ($seen:ident; $($name:ident(|$bytes:ident| $call:expr);)*) => {$(
        $seen.refuse(stringify!($name), |$bytes| { let _ = $call; });
    )*};
}

/// Calls by name, each by a macro of those below: where they stand, their types and their last arguments.
macro_rules! each {
    ($call:ident $seen:ident $module:tt $kinds:tt $arguments:tt; $($name:ident)*) => {
        $($call!($seen $module $kinds $arguments $name);)*
    };
}

/// A call on cells and a window.
macro_rules! on_cells {
    ($seen:ident ($($path:tt)*) [$($kind:ty),*] [$($argument:expr),*] $name:ident) => {
        $seen.refuse(stringify!($name), |bytes| { let _ = $($path)* $name::<$($kind),*>(&mut cells(bytes), OUT $(, $argument)*); });
    };
}

/// A call on cells and a window, and a memory beside them with a window.
macro_rules! on_two_cells {
    ($seen:ident ($($path:tt)*) [$($kind:ty),*] [$($argument:expr),*] $name:ident) => {
        for (left, right) in [(OUT, IN), (IN, OUT)] {
            $seen.refuse(stringify!($name), |bytes| {
                let mut beside = BYTES;
                let _ = $($path)* $name::<$($kind),*>(&mut cells(bytes), left, &mut Exclusive::new(&mut beside), right $(, $argument)*);
            });
        }
    };
}

/// A call on a slice, and on what follows it.
macro_rules! on_slice {
    ($seen:ident ($($path:tt)*) [$($kind:ty),*] [$($argument:expr),*] $name:ident) => {
        $seen.refuse(stringify!($name), |bytes| { let _ = $($path)* $name::<$($kind),*>(bytes $(, $argument)*); });
    };
}

/// A call on two slices and their windows.
macro_rules! on_two_slices {
    ($seen:ident () [$($kind:ty),*] [$($argument:expr),*] $name:ident) => {
        for (left, right) in [(OUT, IN), (IN, OUT)] {
            $seen.refuse(stringify!($name), |bytes| {
                let mut beside = BYTES;
                let _ = $name::<$($kind),*>(bytes, left, &mut beside, right $(, $argument)*);
            });
        }
    };
}

fn elements_and_orders(seen: &mut Seen) {
    refused!(seen;
        at(|_bytes| Lsb0::at::<u8>(8));
        select(|_bytes| HiLo::select::<u8>(8));
        mask(|_bytes| Msb0::mask::<u8>(5, 4));
        mask(|_bytes| Msb0::mask::<u8>(5, 9));
        from_u128(|_bytes| u16::from_u128(1 << 16));
        shl(|bytes| BitStore::shl(bytes[0], 8));
        shr(|bytes| BitStore::shr(bytes[0], 8));
        load_word(|bytes| u8::load_word(bytes));
        store_word(|bytes| u8::store_word(bytes, 1));
        load_word(|bytes| cells(bytes).load_word(0));
        store_word(|bytes| cells(bytes).store_word(0, 1));
        load(|bytes| Shared::new(bytes).load(6));
        store(|bytes| cells(bytes).store(6, 1));
        from_bits(|_bytes| u8::from_bits(0, 0));
        from_bits(|_bytes| i8::from_bits(0, 9));
        from_bits(|_bytes| i8::from_bits(16, 4));
        first_part(|_bytes| Window { start: 1, len: 0 }.first_part::<u8>());
        last_part(|_bytes| Window { start: 1, len: 0 }.last_part::<u8>());
        last_part(|_bytes| Window { start: usize::MAX, len: 1 }.last_part::<u8>());
        tail_part(|_bytes| Window { start: usize::MAX, len: 1 }.tail_part::<u8>());
        len(|_bytes| Part { element: 0, from: 2, to: 1 }.len());
        after(|_bytes| IN.after(21));
        after(|_bytes| Window { start: usize::MAX, len: 1 }.after(0));
        until(|_bytes| IN.until(21));
        range(|_bytes| IN.range(3, 2));
        range(|_bytes| IN.range(3, 21));
        range(|_bytes| Window { start: usize::MAX, len: 1 }.range(0, 1));
        of(|_bytes| Cut::of::<u8>(Window { start: usize::MAX, len: 1 }));
        of_elements(|bytes| Cut::of_elements(&bytes[..], OUT));
        piece(|_bytes| InChunks { size: 4 }.piece(12, 3));
        bits_in(|_bytes| (3..9).bits_in(8));
        toward_start(|_bytes| words::toward_start::<Lsb0, u8>(1, 8));
        toward_end(|_bytes| words::toward_end::<Lsb0, u8>(1, 8));
        joined(|_bytes| words::joined::<Lsb0, u8>(1, 2, 0));
        joined(|_bytes| words::joined::<Lsb0, u8>(1, 2, 8));
        merged(|_bytes| words::merged::<Lsb0, u8>(1, 2, 5, 4));
        merged(|_bytes| words::merged::<Lsb0, u8>(1, 2, 5, 9));
        moved(|_bytes| words::moved::<Lsb0, u8, u16>(1, 5, 4, 0));
        moved(|_bytes| words::moved::<Lsb0, u16, u8>(1, 5, 4, 5));
    );
    for (from, to) in [(2, 1), (2, 9)] {
        let part = Part { element: 0, from, to };
        refused!(seen;
            sought(|bytes| walk::sought::<Lsb0, u8>(bytes[0], part, true));
            first_in_element(|bytes| walk::first_in_element::<Lsb0, u8>(bytes[0], part, true));
            last_in_element(|bytes| walk::last_in_element::<Lsb0, u8>(bytes[0], part, true));
        );
    }
}

fn parts_of_cells(seen: &mut Seen) {
    refused!(seen;
        count_part(|bytes| walk::count_part::<Lsb0, _>(&mut cells(bytes), PART));
        fill_part(|bytes| walk::fill_part::<Lsb0, _>(&mut cells(bytes), PART, true));
        invert_part(|bytes| walk::invert_part::<Lsb0, _>(&mut cells(bytes), PART));
        first_in_part(|bytes| walk::first_in_part::<Lsb0, _>(&mut cells(bytes), PART, true));
        last_in_part(|bytes| walk::last_in_part::<Lsb0, _>(&mut cells(bytes), PART, true));
        store_part(|bytes| words::store_part::<Lsb0, _>(&mut cells(bytes), PART, 1));
        load_element(|bytes| words::load_element::<Lsb0, _>(&mut cells(bytes), IN));
        load_element_after(|bytes| words::load_element_after::<Lsb0, _>(&mut cells(bytes), IN, 1));
        load_element_after(|bytes| words::load_element_after::<Lsb0, _>(&mut cells(bytes), Window { start: 11, len: 5 }, 0x3D));
        load_short(|bytes| words::load_short::<Lsb0, _>(&mut cells(bytes), IN));
        store_short(|bytes| words::store_short::<Lsb0, _>(&mut cells(bytes), IN, 1));
        load_short(|bytes| words::load_short::<Lsb0, _>(&mut cells(bytes), OUT));
        store_short(|bytes| words::store_short::<Lsb0, _>(&mut cells(bytes), OUT, 1));
    );
    let long = Window { start: 0, len: 65 };
    let words_ = [0u64; 3];
    refused!(seen;
        load_parts(|_bytes| words::load_parts::<Lsb0, _>(&mut Shared::new(&words_), long));
        store_parts(|_bytes| words::store_parts::<Lsb0, _>(&mut Exclusive::new(&mut [0u64; 3]), long, 1));
    );
    each!(on_cells seen (words::) [Lsb0, _] []; load_parts);
    each!(on_cells seen (engine::) [Lsb0, _] []; count count_zeros invert);
    each!(on_cells seen (words::) [Lsb0, _] [1]; store_parts);
    each!(on_cells seen (engine::) [Lsb0, _] [true]; fill bits_scan_first bits_scan_last);
    each!(on_two_cells seen (words::) [Lsb0, _, _] []; copy equal);
    each!(on_two_cells seen (words::) [Lsb0, _, _] [BitOp::And]; combine);
    each!(on_two_cells seen (words::) [Lsb0, _, _] []; swap);
    refused!(seen;
        copy_within(|bytes| words::copy_within::<Lsb0, _>(&mut cells(bytes), OUT, 0, 1, 2));
        copy_within(|bytes| words::copy_within::<Lsb0, _>(&mut cells(bytes), IN, 0, 10, 11));
    );
}

fn windows_of_cells(seen: &mut Seen) {
    each!(on_cells seen (engine::) [Lsb0, _] [0]; get_bit rotate_left rotate_right shift_start shift_end);
    each!(on_cells seen (engine::) [Lsb0, _] [0, true]; replace_bit);
    each!(on_cells seen (engine::) [Lsb0, _] [0, 1]; swap_bits);
    each!(on_cells seen (engine::) [Lsb0, _] []; bits_reverse any all reverse);
    each!(on_two_cells seen (engine::) [Lsb0, Msb0, _, _] []; bits_copy bits_swap bits_eq compare);
    each!(on_two_cells seen (engine::) [Lsb0, Msb0, _, _] [BitOp::Or]; bits_op);
    each!(on_two_cells seen (engine::) [HiLo, _, _] []; elements_copy elements_swap elements_eq starts_with ends_with contains);
    each!(on_two_cells seen (engine::) [HiLo, _, _] [BitOp::Or]; elements_op);
    each!(on_two_cells seen (engine::word_steps::) [Lsb0, _, _] []; block_copy block_swap block_eq);
    each!(on_two_cells seen (engine::word_steps::) [Lsb0, _, _] [BitOp::Or]; block_op);
    refused!(seen;
        get_bit(|bytes| engine::get_bit::<Lsb0, _>(&mut cells(bytes), IN, 20));
        replace_bit(|bytes| engine::replace_bit::<Lsb0, _>(&mut cells(bytes), IN, 20, true));
        swap_bits(|bytes| engine::swap_bits::<Lsb0, _>(&mut cells(bytes), IN, 20, 0));
        swap_bits(|bytes| engine::swap_bits::<Lsb0, _>(&mut cells(bytes), IN, 0, 20));
        rotate_left(|bytes| engine::rotate_left::<Lsb0, _>(&mut cells(bytes), IN, 21));
        rotate_right(|bytes| engine::rotate_right::<Lsb0, _>(&mut cells(bytes), IN, 21));
        shift_start(|bytes| engine::shift_start::<Lsb0, _>(&mut cells(bytes), IN, 21));
        shift_end(|bytes| engine::shift_end::<Lsb0, _>(&mut cells(bytes), IN, 21));
        bits_copy_within(|bytes| engine::bits_copy_within::<Lsb0, _>(&mut cells(bytes), OUT, 0, 1, 2));
        bits_copy_within(|bytes| engine::bits_copy_within::<Lsb0, _>(&mut cells(bytes), IN, 9, 21, 0));
        block_copy_within(|bytes| engine::word_steps::block_copy_within::<Msb0, _>(&mut cells(bytes), OUT, 0, 1, 2));
        block_copy_within(|bytes| engine::word_steps::block_copy_within::<Msb0, _>(&mut cells(bytes), IN, 2, 1, 0));
        words_reverse(|bytes| words::reverse::<Lsb0, _>(&mut cells(bytes), OUT));
        block_reverse(|bytes| Lsb0::block_reverse(&mut cells(bytes), OUT));
        find_first(|bytes| Lsb0::find_first(&mut cells(bytes), OUT, true));
        scan_first(|bytes| HiLo::scan_first(&mut cells(bytes), OUT, true));
        scan_last(|bytes| HiLo::scan_last(&mut cells(bytes), OUT, true));
        load_front(|bytes| Lsb0::load_front(&mut cells(bytes), OUT));
        load_front(|bytes| Lsb0::load_front(&mut cells(bytes), Window { start: 0, len: 0 }));
        load_le(|bytes| Lsb0::load_le(&mut cells(bytes), OUT));
        load_be(|bytes| Lsb0::load_be(&mut cells(bytes), OUT));
        store_le(|bytes| Lsb0::store_le(&mut cells(bytes), OUT, 1));
        store_be(|bytes| Lsb0::store_be(&mut cells(bytes), OUT, 1));
        take_first(|bytes| engine::take_first::<Lsb0, _>(&mut cells(bytes), OUT, true, &mut Rest { front: 0, back: 0 }));
        take_last(|bytes| engine::take_last::<Lsb0, _>(&mut cells(bytes), OUT, true, &mut Rest { front: 0, back: 0 }));
        count_left(|bytes| engine::count_left::<Lsb0, _>(&mut cells(bytes), OUT, true, Rest { front: 0, back: 0 }));
        take_first(|bytes| engine::take_first::<Lsb0, _>(&mut cells(bytes), IN, true, &mut Rest { front: 0, back: 21 }));
        take_last(|bytes| engine::take_last::<Lsb0, _>(&mut cells(bytes), IN, true, &mut Rest { front: 2, back: 1 }));
        count_left(|bytes| engine::count_left::<Lsb0, _>(&mut cells(bytes), IN, true, Rest { front: 2, back: 1 }));
        scan_turns(|bytes| engine::scan_turns::<Lsb0, _>(&mut cells(bytes), OUT, true, &[], &mut []));
        scan_turns(|bytes| engine::scan_turns::<Lsb0, _>(&mut cells(bytes), IN, true, &[End::Front], &mut []));
    );
    let long = Window { start: 0, len: 129 };
    let mut wide = [0u128; 2];
    refused!(seen;
        load_le(|_bytes| Msb0::load_le(&mut Shared::new(&wide), long));
        load_be(|_bytes| Lsb0::load_be(&mut Shared::new(&wide), long));
        store_le(|_bytes| Msb0::store_le(&mut Exclusive::new(&mut wide), long, 1));
        store_be(|_bytes| Lsb0::store_be(&mut Exclusive::new(&mut wide), long, 1));
    );
}

fn windows_of_slices(seen: &mut Seen) {
    each!(on_slice seen () [u8, Lsb0] [OUT]; count_in invert_in any_in all_in reverse_in domain_of domain_mut_of);
    each!(on_slice seen () [u8, Lsb0] [OUT, true]; fill_in find_first_in find_last_in);
    each!(on_slice seen () [u8, Lsb0] [OUT, 0]; bit_in rotate_left_in rotate_right_in shift_start_in shift_end_in);
    each!(on_slice seen () [u8, Lsb0] [IN, 21]; bit_in rotate_left_in rotate_right_in shift_start_in shift_end_in);
    each!(on_slice seen () [u8, Lsb0] [OUT, 0, true]; set_in replace_in);
    each!(on_slice seen () [u8, Lsb0] [IN, 20, true]; set_in replace_in);
    each!(on_slice seen () [u8, Lsb0] [OUT, 0, 1]; swap_in);
    each!(on_slice seen () [u8, Lsb0] [IN, 20, 1]; swap_in);
    each!(on_slice seen () [u8, Lsb0] [IN, 1, 20]; swap_in);
    each!(on_slice seen () [u8, Lsb0] [OUT, 0..1, 2]; copy_within_in swap_within_in);
    each!(on_slice seen () [u8, Lsb0] [IN, 0..21, 2]; copy_within_in swap_within_in);
    each!(on_slice seen () [u8, Lsb0] [IN, 0..5, 4]; swap_within_in);
    each!(on_slice seen () [u8, Lsb0] [OUT, 0..1, 2, BitOp::Xor]; combine_within_in);
    each!(on_slice seen () [u8, Lsb0] [IN, 0..11, 10, BitOp::Xor]; combine_within_in);
    each!(on_two_slices seen () [u8, Lsb0, u8, Msb0] []; eq_in compare_in copy_from_in starts_with_in ends_with_in swap_with_in contains_in);
    each!(on_two_slices seen () [u8, Lsb0, u8, Msb0] [BitOp::And]; combine_in);
    each!(on_two_slices seen () [u8, Lsb0] []; eq_block_in compare_block_in copy_from_block_in swap_with_block_in);
    each!(on_two_slices seen () [u8, Lsb0] [BitOp::And]; combine_block_in);
    refused!(seen;
        fill_with_in(|bytes| fill_with_in::<u8, Lsb0, _>(bytes, OUT, |_| true));
        for_each_in(|bytes| for_each_in::<u8, Lsb0, _>(bytes, OUT, |_, bit| !bit));
        copy_from_in(|bytes| copy_from_in::<u8, Lsb0, u8, Msb0>(bytes, IN, &BYTES, SHORT));
        copy_from_block_in(|bytes| copy_from_block_in::<u8, Lsb0>(bytes, IN, &BYTES, SHORT));
        swap_with_in(|bytes| swap_with_in::<u8, Lsb0, u8, Msb0>(bytes, IN, &mut BYTES.clone(), SHORT));
        swap_with_block_in(|bytes| swap_with_block_in::<u8, Lsb0>(bytes, IN, &mut BYTES.clone(), SHORT));
    );
}

struct Flip;

impl Edit<u8, Msb0> for Flip {
    fn edit(&self, view: &mut Written<'_>) {
        view.invert();
    }
}

fn ranges_in_place(seen: &mut Seen) {
    let beside = BYTES;
    let other = shown(&beside);
    each!(on_slice seen (in_place::) [u8, Msb0] [40..49]; any all not_any not_all some count_ones count_zeros first_one last_one first_zero last_zero);
    each!(on_slice seen (in_place::) [u8, Msb0] [40..49]; leading_ones leading_zeros trailing_ones trailing_zeros invert reverse);
    each!(on_slice seen (in_place::) [u8, Msb0] [48]; get);
    each!(on_slice seen (in_place::) [u8, Msb0] [48, true]; set replace);
    each!(on_slice seen (in_place::) [u8, Msb0] [usize::MAX, true]; set replace);
    each!(on_slice seen (in_place::) [u8, Msb0] [48, 0]; swap);
    each!(on_slice seen (in_place::) [u8, Msb0] [0, 48]; swap);
    each!(on_slice seen (in_place::) [u8, Msb0] [9..8, 0]; rotate_left rotate_right shift_start shift_end);
    each!(on_slice seen (in_place::) [u8, Msb0] [8..16, 9]; rotate_left rotate_right shift_start shift_end);
    each!(on_slice seen (in_place::) [u8, Msb0] [8..20, 37]; copy_within swap_within and_within or_within xor_within and_not_within);
    each!(on_slice seen (in_place::) [u8, Msb0] [8..20, 9]; swap_within);
    refused!(seen;
        fill(|bytes| in_place::fill::<u8, Msb0>(bytes, 40..49, true));
        insert(|bytes| in_place::insert::<u8, Msb0>(bytes, 48, 0, true));
        insert(|bytes| in_place::insert::<u8, Msb0>(bytes, 40, 41, true));
        remove(|bytes| in_place::remove::<u8, Msb0>(bytes, 49, 0));
        remove(|bytes| in_place::remove::<u8, Msb0>(bytes, 40, 40));
        edit(|bytes| in_place::edit::<u8, Msb0, Flip>(bytes, 40..49, &Flip));
        fill_with(|bytes| in_place::fill_with::<u8, Msb0, _>(bytes, 40..49, |_| true));
        for_each(|bytes| in_place::for_each::<u8, Msb0, _>(bytes, 40..49, |_, bit| !bit));
        copy_from(|bytes| in_place::copy_from::<u8, Msb0, u8, Msb0>(bytes, 40..49, other));
        copy_from(|bytes| in_place::copy_from::<u8, Msb0, u8, Msb0>(bytes, 0..9, other));
        and_bits(|bytes| in_place::and_bits::<u8, Msb0, u8, Msb0>(bytes, 40..49, other));
        or_bits(|bytes| in_place::or_bits::<u8, Msb0, u8, Msb0>(bytes, 40..49, other));
        xor_bits(|bytes| in_place::xor_bits::<u8, Msb0, u8, Msb0>(bytes, 40..49, other));
        and_not_bits(|bytes| in_place::and_not_bits::<u8, Msb0, u8, Msb0>(bytes, 40..49, other));
        eq_bits(|bytes| in_place::eq_bits::<u8, Msb0, u8, Msb0>(bytes, 40..49, other));
        cmp_bits(|bytes| in_place::cmp_bits::<u8, Msb0, u8, Msb0>(bytes, 40..49, other));
        starts_with(|bytes| in_place::starts_with::<u8, Msb0, u8, Msb0>(bytes, 40..49, other));
        ends_with(|bytes| in_place::ends_with::<u8, Msb0, u8, Msb0>(bytes, 40..49, other));
        contains(|bytes| in_place::contains::<u8, Msb0, u8, Msb0>(bytes, 40..49, other));
        swap_with(|bytes| in_place::swap_with::<u8, Msb0, u8, Msb0>(bytes, 40..49, &mut view(&mut BYTES.clone())));
        swap_with(|bytes| in_place::swap_with::<u8, Msb0, u8, Msb0>(bytes, 0..9, &mut view(&mut BYTES.clone())));
        peek(|bytes| in_place::BitReader::<u8, Msb0>::new(bytes).peek::<u8>(9));
        starting_at(|bytes| in_place::BitWriter::<u8, Msb0>::starting_at(bytes, 49));
        take(|bytes| in_place::BitReader::<u8, Msb0>::new(bytes).take::<u8>(9));
        peek_highest_first(|bytes| in_place::BitReader::<u8, Lsb0>::new(bytes).peek_highest_first::<u8>(9));
        peek_lowest_first(|bytes| in_place::BitReader::<u8, Msb0>::new(bytes).peek_lowest_first::<u8>(9));
        take_highest_first(|bytes| in_place::BitReader::<u8, Lsb0>::new(bytes).take_highest_first::<u8>(9));
        take_lowest_first(|bytes| in_place::BitReader::<u8, Msb0>::new(bytes).take_lowest_first::<u8>(9));
        take_row(|bytes| in_place::BitReader::<u8, Msb0>::new(bytes).take_row(&mut [(3, 1), (65, 1)]));
        within(|bytes| in_place::BitWriter::<u8, Msb0>::within(bytes, 40..49));
        within(|bytes| in_place::BitWriter::<u8, Msb0>::within(bytes, 9..8));
        put_row(|bytes| in_place::BitWriter::<u8, Msb0>::new(bytes).put_row(&[(3, 1), (65, 1)]));
        put(|bytes| in_place::BitWriter::<u8, Msb0>::new(bytes).put::<u8>(1, 9));
        put_highest_first(|bytes| in_place::BitWriter::<u8, Lsb0>::new(bytes).put_highest_first::<u8>(1, 9));
        put_lowest_first(|bytes| in_place::BitWriter::<u8, Msb0>::new(bytes).put_lowest_first::<u8>(1, 9));
    );
    for range in [40..49, 5..5, 5..14] {
        refused!(seen;
            load_le(|bytes| in_place::load_le::<u8, Msb0, u8>(bytes, range.clone()));
            load_be(|bytes| in_place::load_be::<u8, Msb0, u8>(bytes, range.clone()));
        );
    }
    for range in [40..49, 5..14] {
        refused!(seen;
            store_le(|bytes| in_place::store_le::<u8, Msb0, u8>(bytes, range.clone(), 1));
            store_be(|bytes| in_place::store_be::<u8, Msb0, u8>(bytes, range.clone(), 1));
        );
    }
}

fn views(seen: &mut Seen) {
    let beside = BYTES;
    let other = shown(&beside).into_part(0..47);
    refused!(seen;
        index(|bytes| shown(bytes)[48]);
        index(|bytes| view(bytes)[48]);
        index(|bytes| BitSliceIndex::index(40..49, shown(bytes)));
        index_mut(|bytes| BitSliceIndex::index_mut(48, view(bytes)));
        into_bit(|bytes| shown(bytes).into_bit(48));
        into_bit(|bytes| view(bytes).into_bit(48));
        bit_mut(|bytes| view(bytes).bit_mut(48));
        into_part(|bytes| shown(bytes).into_part(40..49));
        into_part(|bytes| view(bytes).into_part(40..49));
        part_mut(|bytes| view(bytes).part_mut(40..49));
        into_slice(|bytes| shown(bytes).into_part(8..48).into_part(1..40).into_slice());
        into_slice(|bytes| view(bytes).into_part(1..48).into_slice());
        split_at(|bytes| shown(bytes).split_at(49));
        split_at(|bytes| view(bytes).split_at(49));
        lending_split_at_mut(|bytes| view(bytes).lending_split_at_mut(49));
        split_at_mut(|bytes| view(bytes).split_at_mut(49));
        split_apart_mut(|bytes| view(bytes).split_apart_mut(49));
        set(|bytes| view(bytes).set(48, true));
        replace(|bytes| view(bytes).replace(48, true));
        swap(|bytes| view(bytes).swap(48, 0));
        swap(|bytes| view(bytes).swap(0, 48));
        rotate_left(|bytes| view(bytes).rotate_left(49));
        rotate_right(|bytes| view(bytes).rotate_right(49));
        shift_start(|bytes| view(bytes).shift_start(49));
        shift_end(|bytes| view(bytes).shift_end(49));
        shift_left(|bytes| view(bytes).shift_left(49));
        shift_right(|bytes| view(bytes).shift_right(49));
        copy_within(|bytes| view(bytes).copy_within(0..9, 40));
        swap_within(|bytes| view(bytes).swap_within(0..9, 40));
        swap_within(|bytes| view(bytes).swap_within(0..9, 8));
        and_within(|bytes| view(bytes).and_within(0..9, 40));
        or_within(|bytes| view(bytes).or_within(0..9, 40));
        xor_within(|bytes| view(bytes).xor_within(0..9, 40));
        and_not_within(|bytes| view(bytes).and_not_within(0..9, 40));
        count_ones_before(|bytes| view(bytes).count_ones_before(49));
        count_zeros_before(|bytes| view(bytes).count_zeros_before(49));
        copy_from_bitslice(|bytes| view(bytes).copy_from_bitslice(other));
        copy_from_slice(|bytes| view(bytes).copy_from_slice(other));
        clone_from_bitslice(|bytes| view(bytes).clone_from_bitslice(other));
        clone_from_slice(|bytes| view(bytes).clone_from_slice(other));
        swap_with_bitslice(|bytes| view(bytes).swap_with_bitslice(&mut view(&mut BYTES.clone()).into_part(0..47)));
        swap_with_slice(|bytes| view(bytes).swap_with_slice(&mut view(&mut BYTES.clone()).into_part(0..47)));
        swap_with_bits(|bytes| view(bytes).swap_with_bits(&mut view(&mut BYTES.clone()).into_part(0..47)));
        windows(|bytes| shown(bytes).windows(0));
        chunks(|bytes| shown(bytes).chunks(0));
        chunks_exact(|bytes| shown(bytes).chunks_exact(0));
        rchunks(|bytes| shown(bytes).rchunks(0));
        rchunks_exact(|bytes| shown(bytes).rchunks_exact(0));
        lending_chunks_mut(|bytes| view(bytes).lending_chunks_mut(0));
        chunks_mut(|bytes| view(bytes).chunks_mut(0));
        lending_chunks_exact_mut(|bytes| view(bytes).lending_chunks_exact_mut(0));
        chunks_exact_mut(|bytes| view(bytes).chunks_exact_mut(0));
        lending_rchunks_mut(|bytes| view(bytes).lending_rchunks_mut(0));
        rchunks_mut(|bytes| view(bytes).rchunks_mut(0));
        lending_rchunks_exact_mut(|bytes| view(bytes).lending_rchunks_exact_mut(0));
        rchunks_exact_mut(|bytes| view(bytes).rchunks_exact_mut(0));
        edit_with(|bytes| view(bytes).edit_with(40..49, |part| part.fill(false)));
        edit_halves(|bytes| view(bytes).edit_halves(49, |left| left.fill(false), |right| right.fill(true)));
        for_each_chunk_mut(|bytes| view(bytes).for_each_chunk_mut(0, |_, part| part.invert()));
        for_each_rchunk_mut(|bytes| view(bytes).for_each_rchunk_mut(0, |_, part| part.invert()));
        for_each_chunk_exact_mut(|bytes| view(bytes).for_each_chunk_exact_mut(0, |_, part| part.invert()));
        for_each_rchunk_exact_mut(|bytes| view(bytes).for_each_rchunk_exact_mut(0, |_, part| part.invert()));
        take_mut(|bytes| view(bytes).into_part(0..0).lending_iter_mut().take_mut());
        take_back_mut(|bytes| view(bytes).into_part(0..0).lending_iter_mut().take_back_mut());
        take_mut(|bytes| view(bytes).into_part(0..0).lending_chunks_mut(3).take_mut());
        take_back_mut(|bytes| view(bytes).into_part(0..0).lending_chunks_mut(3).take_back_mut());
        bit(|bytes| view(bytes).get_lent(0..2).bit());
        load_le(|bytes| shown(bytes).into_part(0..0).load_le::<u8>());
        load_le(|bytes| shown(bytes).into_part(0..9).load_le::<u8>());
        load_be(|bytes| view(bytes).into_part(0..0).load_be::<u8>());
        load_be(|bytes| view(bytes).into_part(0..9).load_be::<u8>());
        store_le(|bytes| view(bytes).into_part(0..0).store_le::<u8>(1));
        store_le(|bytes| view(bytes).into_part(0..9).store_le::<u8>(1));
        store_be(|bytes| view(bytes).into_part(0..0).store_be::<u8>(1));
        store_be(|bytes| view(bytes).into_part(0..9).store_be::<u8>(1));
        run_halves(|bytes| run_halves(&mut view(bytes), 49, &[], other, &mut []));
        run_halves(|bytes| run_halves(&mut view(bytes), 9, &[(Side::Left, Step { from: 0, to: 1, op: Op::Invert })], other, &mut []));
    );
    let _ = Reply::Done;
}

fn sequences(seen: &mut Seen) {
    let made = || BitVec::<u8, Msb0>::from_vec(BYTES.to_vec());
    refused!(seen;
        from_elements(|bytes| BitVec::<u8, Msb0>::from_elements(bytes.to_vec().into(), 8, 1));
        from_elements(|bytes| BitVec::<u8, Msb0>::from_elements(bytes.to_vec().into(), 7, 42));
        try_extend_highest_first(|_bytes| made().try_extend_highest_first(1, 65));
        try_extend_lowest_first(|_bytes| made().try_extend_lowest_first(1, 65));
        try_insert(|_bytes| made().try_insert(49, true));
        remove(|_bytes| made().remove(48));
        swap_remove(|_bytes| made().swap_remove(48));
        try_split_off(|_bytes| made().try_split_off(49));
        try_drain(|_bytes| made().try_drain(40..49));
    );
    let mut bits = made();
    assert!(catch_unwind(AssertUnwindSafe(|| bits.remove(48))).is_err());
    assert_eq!(bits.into_vec(), BYTES);
}

/// The calls that `bitvec` doesn't test.
fn unchecked(seen: &mut Seen) {
    refused!(seen;
        get_unchecked(|bytes| shown(bytes).get_unchecked(48));
        get_unchecked(|bytes| BitSliceIndex::get_unchecked(48, shown(bytes)));
        get_unchecked_mut(|bytes| view(bytes).get_unchecked_mut(40..49));
        get_unchecked_mut(|bytes| BitSliceIndex::get_unchecked_mut(48, view(bytes)));
        get_unchecked(|bytes| shown(bytes).get_unchecked(9..3));
        get_unchecked(|bytes| shown(bytes).get_unchecked(0..=usize::MAX));
        get_unchecked_mut(|bytes| view(bytes).part_mut(2..4).get_unchecked_mut(0..6).fill(true));
        split_at_unchecked(|bytes| shown(bytes).split_at_unchecked(49));
        lending_split_at_unchecked_mut(|bytes| view(bytes).lending_split_at_unchecked_mut(49));
        set_unchecked(|bytes| view(bytes).set_unchecked(48, true));
        replace_unchecked(|bytes| view(bytes).replace_unchecked(48, true));
        swap_unchecked(|bytes| view(bytes).swap_unchecked(48, 0));
        swap_unchecked(|bytes| view(bytes).swap_unchecked(0, 48));
        copy_within_unchecked(|bytes| view(bytes).copy_within_unchecked(0..9, 40));
    );
}

fn records(seen: &mut Seen) {
    let of = |bits| record::Layout::new(Global, bits, &[Window { start: 1, len: 7 }]).expect("memory");
    let (layout, longer) = (of(48), of(49));
    refused!(seen;
        field(|_bytes| layout.field(1));
        encode(|bytes| record::encode(&longer, Endian::Big, &[1], &mut view(bytes)));
        encode_one(|bytes| record::encode_one(&longer, Endian::Big, 0, 1, &mut view(bytes)));
        encode_one(|bytes| record::encode_one(&layout, Endian::Big, 1, 1, &mut view(bytes)));
        decode(|bytes| record::decode(&longer, Endian::Big, shown(bytes), &mut [0]));
        decode(|bytes| record::decode(&layout, Endian::Big, shown(bytes), &mut [0, 0]));
        decode_one(|bytes| record::decode_one(&longer, Endian::Big, shown(bytes), 0));
        decode_one(|bytes| record::decode_one(&layout, Endian::Big, shown(bytes), 1));
    );
}

#[test]
fn each_condition_is_tested_before_anything_is_written() {
    std::panic::set_hook(Box::new(|_| {}));
    let mut seen = Seen::default();
    elements_and_orders(&mut seen);
    parts_of_cells(&mut seen);
    windows_of_cells(&mut seen);
    windows_of_slices(&mut seen);
    ranges_in_place(&mut seen);
    views(&mut seen);
    sequences(&mut seen);
    records(&mut seen);
    unchecked(&mut seen);
    let _ = std::panic::take_hook();
    assert!(seen.wrong.is_empty(), "{:#?}", seen.wrong);
    let is_left = |condition: &&&str| !seen.conditions.contains(**condition) && !BOUNDLESS.iter().any(|end| condition.ends_with(end));
    let left: Vec<_> = list::CONDITIONS.iter().filter(is_left).collect();
    assert!(left.is_empty(), "no call here breaks {left:#?}");
}

#[test]
fn a_message_has_the_window_of_a_view() {
    let long = vec![0u8; 1 << 17];
    let mut bytes = BYTES;
    let call = AssertUnwindSafe(|| view(&mut bytes).copy_from_bitslice(BitSlice::<u8, Msb0>::from_slice(&long).into_part(5..1 << 20)));
    let message = *catch_unwind(call).expect_err("the lengths differ").downcast::<String>().expect("a message");
    let values = "len is 48, src.window is Window { start: 5, len: 1048571 }, src.len is 1048571";
    assert_eq!(message, format!("copy_from_bitslice needs that len == src.len: {values}"));
}
