//! Bytes of std's streams: a sequence takes them at its end and gives them from its front, and a view is read from.

use crate::memory::{granted, Allocator};
use crate::prelude::*;
use std::io::{Read, Result, Write};

/// Each byte is eight bits more, the number that [`store_be`](BitSliceMut::store_be) writes there. It panics where memory is
/// refused.
impl<T: BitStore, O: SliceOrder + FieldOrder, A: Allocator> Write for BitVec<T, O, A> {
    #[track_caller]
    fn write(&mut self, bytes: &[u8]) -> Result<usize> {
        let begin = self.len();
        granted(self.try_resize(begin + 8 * bytes.len(), false));
        for (slot, byte) in self.as_mut_bitslice().into_part(begin..).into_cells().chunks_exact_mut(8).zip(bytes) {
            slot.store_be(*byte);
        }
        Ok(bytes.len())
    }

    fn flush(&mut self) -> Result<()> {
        Ok(())
    }
}

/// Each eight bits from the front are a byte, as [`load_be`](BitSlice::load_be) reads it; the view then begins behind them.
impl<T: BitStore, O: FieldOrder> Read for BitSlice<'_, T, O> {
    fn read(&mut self, bytes: &mut [u8]) -> Result<usize> {
        let mut count = 0;
        for (byte, bits) in bytes.iter_mut().zip(self.chunks_exact(8)) {
            *byte = bits.load_be();
            count += 1;
        }
        *self = self.into_part(8 * count..);
        Ok(count)
    }
}

/// Each eight bits from the front are a byte, and are taken out.
impl<T: BitStore, O: SliceOrder + FieldOrder, A: Allocator> Read for BitVec<T, O, A> {
    fn read(&mut self, bytes: &mut [u8]) -> Result<usize> {
        let count = self.as_bitslice().read(bytes)?;
        let rest = self.len() - 8 * count;
        self.shift_start(8 * count);
        self.truncate(rest);
        Ok(count)
    }
}
