//! Memory that may be refused: what the text takes from Rattle's `std::alloc`, and a vector that answers where it has no room.

/// Memory was refused.
#[derive(Clone, Copy, Debug, PartialEq, Eq)]
pub struct AllocError;

/// Says whether a request for memory is granted. What is granted comes from the global allocator, which may refuse it too.
///
/// A type of one's own bounds what a sequence may take, as a budget does.
pub trait Allocator {
    /// Whether a request for so many bytes is granted.
    fn grants(&self, bytes: usize) -> bool;
}

/// Grants each request.
#[derive(Clone, Copy, Debug, Default)]
pub struct Global;

impl Allocator for Global {
    #[inline(always)]
    fn grants(&self, _bytes: usize) -> bool {
        true
    }
}

impl<A: Allocator + ?Sized> Allocator for &A {
    #[inline(always)]
    fn grants(&self, bytes: usize) -> bool {
        (**self).grants(bytes)
    }
}

/// What was made, for a call that can't answer that memory was refused: it panics, as std does at a capacity that can't be had.
#[cfg(feature = "alloc")]
#[inline]
#[track_caller]
pub(crate) fn granted<T>(made: Result<T, AllocError>) -> T {
    match made {
        Ok(made) => made,
        Err(AllocError) => panic!("memory was refused"),
    }
}

#[cfg(feature = "alloc")]
pub use growing::{TryExtend, Vec};

#[cfg(feature = "alloc")]
mod growing {
    use super::{AllocError, Allocator, Global};
    use alloc::vec;
    use core::fmt;
    use core::ops::{Deref, DerefMut};

    /// What takes the items of an iterator, and answers where memory for one was refused: the items before it are taken.
    pub trait TryExtend<I> {
        /// Adds the items of an iterator.
        fn try_extend<S: IntoIterator<Item = I>>(&mut self, items: S) -> Result<(), AllocError>;
    }

    /// Calls of one expression.
    macro_rules! passed {
        ($($(#[$doc:meta])+ $public:vis $name:ident($($parameter:tt)*) -> $answer:ty { $body:expr })*) => {$(
            $(#[$doc])+
            #[inline]
            $public fn $name($($parameter)*) -> $answer {
                $body
            }
        )*};
    }

    /// A vector whose calls answer where memory is refused. It is a slice by `Deref`, and a `Vec` of Rust by `into`.
    pub struct Vec<T, A: Allocator = Global> {
        items: vec::Vec<T>,
        alloc: A,
    }

    impl<T, A: Allocator> Vec<T, A> {
        /// A vector of no item, which asks for no memory.
        pub fn new(alloc: A) -> Self {
            let items = vec::Vec::new();
            Vec { items, alloc }
        }

        /// A vector of no item with room for `count`, asked for by one request. std gives so much or more.
        pub fn with_capacity(alloc: A, count: usize) -> Result<Self, AllocError> {
            let mut made = Vec::new(alloc);
            made.grow(count, vec::Vec::try_reserve_exact)?;
            Ok(made)
        }

        /// Makes room for `more` items by one request, where there is none.
        #[inline]
        fn grow(
            &mut self,
            more: usize,
            reserve: fn(&mut vec::Vec<T>, usize) -> Result<(), alloc::collections::TryReserveError>,
        ) -> Result<(), AllocError> {
            if more <= self.items.capacity() - self.items.len() {
                return Ok(());
            }
            self.request(more, reserve)
        }

        #[cold]
        #[inline(never)]
        fn request(
            &mut self,
            more: usize,
            reserve: fn(&mut vec::Vec<T>, usize) -> Result<(), alloc::collections::TryReserveError>,
        ) -> Result<(), AllocError> {
            let bytes = self.items.len().saturating_add(more).saturating_mul(core::mem::size_of::<T>());
            if !self.alloc.grants(bytes) {
                return Err(AllocError);
            }
            reserve(&mut self.items, more).map_err(|_| AllocError)
        }

        /// Makes room for so many items more, at least.
        #[inline]
        pub fn try_reserve(&mut self, more: usize) -> Result<(), AllocError> {
            self.grow(more, vec::Vec::try_reserve)
        }

        /// Adds an item.
        #[inline]
        pub fn try_push(&mut self, item: T) -> Result<(), AllocError> {
            self.try_reserve(1)?;
            self.items.push(item);
            Ok(())
        }

        /// Adds clones of the items of a slice.
        pub fn extend_from_slice(&mut self, items: &[T]) -> Result<(), AllocError>
        where
            T: Clone,
        {
            self.try_reserve(items.len())?;
            self.items.extend_from_slice(items);
            Ok(())
        }

        /// Keeps the first `len` items, or adds as many clones as there are `len` with them.
        #[inline]
        pub fn try_resize(&mut self, len: usize, item: T) -> Result<(), AllocError>
        where
            T: Clone,
        {
            self.try_reserve(len.saturating_sub(self.items.len()))?;
            self.items.resize(len, item);
            Ok(())
        }

        /// A copy of a slice.
        pub fn from_slice(alloc: A, items: &[T]) -> Result<Self, AllocError>
        where
            T: Clone,
        {
            let mut made = Vec::with_capacity(alloc, items.len())?;
            made.items.extend_from_slice(items);
            Ok(made)
        }

        /// Gives back the memory that the items don't need, by a request for what they do; where it is refused, all stays.
        pub fn shrink_to_fit(&mut self) {
            let bytes = self.items.len() * core::mem::size_of::<T>();
            if self.items.len() < self.items.capacity() && (bytes == 0 || self.alloc.grants(bytes)) {
                self.items.shrink_to_fit();
            }
        }

        passed! {
            /// How many items there is room for, those that are there with them.
            pub capacity(&self) -> usize { self.items.capacity() }
            /// Keeps the first `len` items.
            pub truncate(&mut self, len: usize) -> () { self.items.truncate(len) }
            /// Takes the last item.
            pub pop(&mut self) -> Option<T> { self.items.pop() }
            /// Drops the last item.
            pub(crate) take_last(&mut self) -> () { drop(self.items.pop()) }
            /// Adds an item for which there is room.
            pub(crate) push_reserved(&mut self, item: T) -> () { self.items.push(item) }
            /// What grants its requests.
            pub allocator(&self) -> &A { &self.alloc }
            /// The items.
            pub as_slice(&self) -> &[T] { &self.items }
            /// The items, for writing.
            pub as_mut_slice(&mut self) -> &mut [T] { &mut self.items }
            /// The items as a `Vec` of Rust.
            pub into_std(self) -> vec::Vec<T> { self.items }
        }
    }

    impl<T: Clone, A: Allocator + Clone> Vec<T, A> {
        /// A copy whose memory is asked for by one request of an allocator that is this one's, cloned.
        pub fn try_clone(&self) -> Result<Self, AllocError> {
            Vec::from_slice(self.alloc.clone(), &self.items)
        }
    }

    /// It panics where memory is refused; `try_clone` answers that.
    impl<T: Clone, A: Allocator + Clone> Clone for Vec<T, A> {
        #[track_caller]
        fn clone(&self) -> Self {
            super::granted(self.try_clone())
        }
    }

    impl<T> From<vec::Vec<T>> for Vec<T, Global> {
        fn from(items: vec::Vec<T>) -> Self {
            let alloc = Global;
            Vec { items, alloc }
        }
    }

    impl<T, A: Allocator> From<Vec<T, A>> for vec::Vec<T> {
        fn from(items: Vec<T, A>) -> Self {
            items.items
        }
    }

    impl<T, A: Allocator> Deref for Vec<T, A> {
        type Target = [T];

        #[inline]
        fn deref(&self) -> &[T] {
            &self.items
        }
    }

    impl<T, A: Allocator> DerefMut for Vec<T, A> {
        #[inline]
        fn deref_mut(&mut self) -> &mut [T] {
            &mut self.items
        }
    }

    impl<T: fmt::Debug, A: Allocator> fmt::Debug for Vec<T, A> {
        fn fmt(&self, f: &mut fmt::Formatter<'_>) -> fmt::Result {
            self.items.fmt(f)
        }
    }

    impl<T: PartialEq, A: Allocator, B: Allocator> PartialEq<Vec<T, B>> for Vec<T, A> {
        fn eq(&self, other: &Vec<T, B>) -> bool {
            self.items == other.items
        }
    }

    impl<T: Eq, A: Allocator> Eq for Vec<T, A> {}

    impl<T, A: Allocator> IntoIterator for Vec<T, A> {
        type Item = T;
        type IntoIter = vec::IntoIter<T>;

        fn into_iter(self) -> vec::IntoIter<T> {
            self.items.into_iter()
        }
    }

    impl<'a, T, A: Allocator> IntoIterator for &'a Vec<T, A> {
        type Item = &'a T;
        type IntoIter = core::slice::Iter<'a, T>;

        fn into_iter(self) -> core::slice::Iter<'a, T> {
            self.items.iter()
        }
    }
}
