//! `BitBox`, which is a `BitVec` here.

use crate::prelude::*;

/// Bits of a memory of their own: a [`BitVec`], whose calls it has all, so it may grow too.
pub type BitBox<T = usize, O = Lsb0> = BitVec<T, O>;
