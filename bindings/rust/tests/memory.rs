//! Errors and memory: what is printed, what a budget refuses, and how much is taken.

use fehimbary::in_place::CursorError;
use fehimbary::memory::{AllocError, Allocator, Vec};
use fehimbary::prelude::*;
use fehimbary::ptr::BitSpanError;
use fehimbary::run::{Refusal, RunError};
use fehimbary::vec::RepeatError;
use std::cell::Cell;
use std::error::Error;
use std::panic::{catch_unwind, AssertUnwindSafe};

/// What an error prints, if it is one that a caller may box.
fn printed<E: Error + Send + Sync + 'static>(error: E) -> String {
    let boxed: Box<dyn Error + Send + Sync> = Box::new(error);
    boxed.to_string()
}

#[test]
fn each_error_prints_what_was_refused() {
    assert_eq!(printed(AllocError), "memory was refused");
    let most = usize::MAX / 8;
    let too_long = BitSpanError::TooLong(most + 1);
    assert_eq!(printed(too_long), format!("the elements have {} bits, and a view has at most {most}", most + 1));
    assert_eq!(printed(RepeatError::TooLong), "the repeat would have more bits than a view can have");
    assert_eq!(printed(RepeatError::Memory), "memory for the repeat was refused");
    assert_eq!(printed(CursorError::Full), "too few bits are left to write");
    assert_eq!(printed(CursorError::Ended), "too few bits are left to read");
    assert_eq!(printed(Refusal::Dest), "the destination is not in the range");
    let _: fn(RunError) -> String = printed;
}

/// So many bytes are left to grant.
struct Budget(Cell<usize>);

impl Allocator for Budget {
    fn grants(&self, bytes: usize) -> bool {
        let is_granted = bytes <= self.0.get();
        self.0.set(self.0.get() - bytes * usize::from(is_granted));
        is_granted
    }
}

#[test]
fn a_copy_asks_for_its_memory() {
    let budget = Budget(Cell::new(24));
    let items = Vec::from_slice(&budget, &[1u64, 2]).expect("16 bytes are granted");
    assert_eq!(items.try_clone().err(), Some(AllocError));
    assert!(catch_unwind(AssertUnwindSafe(|| items.clone())).is_err());
    budget.0.set(16);
    assert_eq!(items.clone().as_slice(), [1, 2]);
    assert_eq!(budget.0.get(), 0);
    assert_eq!(items.try_clone().err(), Some(AllocError));
}

#[test]
fn a_sequence_has_the_capacity_that_was_asked_for() {
    for bits in [1usize, 7, 8, 9, 63, 64, 65, 1000, 4097] {
        let made = BitVec::<u8, Lsb0>::with_capacity(bits);
        assert_eq!(made.capacity(), (bits + 7) / 8 * 8);
        let made = BitVec::<u64, Msb0>::with_capacity(bits);
        assert_eq!(made.capacity(), (bits + 63) / 64 * 64);
    }
}
