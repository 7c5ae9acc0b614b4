//! Bit slices, proved: views of the bits of a slice of integers, and what is asked of them and done to them.
//!
//! This is the text of Fehimbary, whose every function is proved to meet its contract, with the contracts taken out. Its paths and
//! names are those of the crate `bitvec` 1.1.1. Where a contract asks something of its caller, the call tests it and panics.
//!
//! ```
//! use fehimbary::prelude::*;
//!
//! let mut bytes = [0u8; 4];
//! let mut bits = bytes.view_bits_mut::<Msb0>();
//! bits.part_mut(4..16).store_be::<u16>(0xABC);
//! assert_eq!(bits.count_ones(), 7);
//! assert_eq!(bytes, [0x0A, 0xBC, 0, 0]);
//! ```
//!
//! A program of `bitvec` finds in [`from_bitvec`] what it has to change.
#![forbid(unsafe_code)]
#![warn(missing_docs)]
#![allow(rustdoc::private_intra_doc_links)]
#![cfg_attr(not(feature = "std"), no_std)]

#[cfg(feature = "alloc")]
extern crate alloc;

pub mod aliased;
mod arrays;
pub mod bits;
#[cfg(feature = "alloc")]
pub mod boxed;
mod by_elements;
mod calls;
mod comparisons;
mod conditions;
pub mod conversions;
mod errors;
#[cfg(feature = "std")]
mod io;
pub mod iterating;
mod laws;
pub mod macros;
pub mod memory;
mod older;
mod ones;
mod operators;
mod parts;
#[cfg(feature = "alloc")]
mod plain;
// The text of the sources is as it is proved: the names of these lints are the forms that it has and rustc or clippy would write
// otherwise. `dead_code` is what its crates have for others, `missing_docs` and `deprecated` what no user reaches.
#[allow(unknown_lints, dead_code, deprecated, missing_docs, private_interfaces)]
#[allow(
    clippy::extra_unused_type_parameters,
    clippy::len_without_is_empty,
    clippy::let_and_return,
    clippy::manual_find,
    clippy::manual_map,
    clippy::manual_range_contains,
    clippy::module_inception,
    clippy::needless_range_loop,
    clippy::non_canonical_clone_impl,
    clippy::too_many_arguments,
    clippy::unnecessary_cast
)]
mod proved;
mod ranges;
mod references;
mod signed;
mod texts;
mod vectors;
pub mod view;
pub mod walks;

#[cfg(feature = "std")]
#[doc = include_str!("../FROM_BITVEC.md")]
pub mod from_bitvec {}

// modules

#[cfg(test)]
mod tests;
