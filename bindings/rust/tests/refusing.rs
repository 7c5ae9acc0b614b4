//! An allocator that runs out of memory when a test wants it to.
use crate::memory::Allocator;
use std::cell::Cell;

/// An allocator that grants its first requests, and refuses every later one.
pub struct Refusing<B: Allocator> {
    inner: B,
    left: Cell<u64>,
    granted: Cell<u64>,
    bytes: Cell<u64>,
    refused: Cell<u64>,
}

impl<B: Allocator> Refusing<B> {
    /// An allocator that grants `granted` requests from `inner`.
    pub fn new(inner: B, granted: u64) -> Self {
        Refusing {
            inner,
            left: Cell::new(granted),
            granted: Cell::new(0),
            bytes: Cell::new(0),
            refused: Cell::new(0),
        }
    }

    /// How many requests were granted so far.
    pub fn granted(&self) -> u64 {
        self.granted.get()
    }

    /// Of how many bytes the requests were that were granted so far.
    pub fn bytes(&self) -> u64 {
        self.bytes.get()
    }

    /// How many requests were refused so far.
    pub fn refused(&self) -> u64 {
        self.refused.get()
    }

    /// Whether no request was refused so far.
    pub fn granted_all(&self) -> bool {
        self.refused() == 0
    }
}

impl<B: Allocator> Allocator for Refusing<B> {
    fn grants(&self, bytes: usize) -> bool {
        if self.left.get() == 0 || !self.inner.grants(bytes) {
            self.refused.set(self.refused.get() + 1);
            return false;
        }
        self.left.set(self.left.get() - 1);
        self.granted.set(self.granted.get() + 1);
        self.bytes.set(self.bytes.get() + bytes as u64);
        true
    }
}
