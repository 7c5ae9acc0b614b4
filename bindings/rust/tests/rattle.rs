//! What tests take from Rattle's runtime.
#![allow(dead_code, unused_imports, unused_macros)]

/// The runtime that a test is handed.
pub struct HostRuntime;

/// What may end the process, as a test may.
pub trait Abort {}

impl Abort for HostRuntime {}

/// What has the global allocator.
pub trait AllocGlobal {
    fn alloc(&self) -> Global;
}

impl AllocGlobal for HostRuntime {
    fn alloc(&self) -> Global {
        Global
    }
}

/// `clone` as Rattle has it, of types that Rust clones without asking for memory.
pub trait TryClone: Clone {
    fn try_clone(&self) -> Result<Self, AllocError> {
        Ok(self.clone())
    }
}

impl<T: Clone> TryClone for T {}

/// `vec![in alloc; ..]`.
macro_rules! vec_in {
    ($alloc:expr; $item:expr; $count:expr) => {{
        let _alloc = $alloc;
        Ok::<_, AllocError>(Vec::from(std::vec![$item; $count]))
    }};
    ($alloc:expr; $($item:expr),* $(,)?) => {{
        let _alloc = $alloc;
        Ok::<_, AllocError>(Vec::from(std::vec![$($item),*]))
    }};
}
pub(crate) use vec_in;

/// `format!(in alloc; ..)`.
macro_rules! format_in {
    ($alloc:expr; $($word:tt)*) => {{
        let _alloc = $alloc;
        Ok::<_, AllocError>(format!($($word)*))
    }};
}
pub(crate) use format_in;

/// `collect(alloc)`.
pub trait CollectIn: Iterator + Sized {
    fn collect_in<A: Allocator>(self, alloc: A) -> Result<Vec<Self::Item, A>, AllocError> {
        let mut list = Vec::new(alloc);
        for item in self {
            list.try_push(item)?;
        }
        Ok(list)
    }
}

impl<I: Iterator> CollectIn for I {}

/// Calls of a vector of Rattle's, by those of Rust's.
pub trait ListCalls<T> {
    fn change<R>(&mut self, change: impl FnOnce(&mut std::vec::Vec<T>) -> R) -> R;

    fn try_insert(&mut self, index: usize, item: T) -> Result<(), AllocError> {
        self.change(|list| list.insert(index, item));
        Ok(())
    }

    fn remove(&mut self, index: usize) -> T {
        self.change(|list| list.remove(index))
    }

    fn swap_remove(&mut self, index: usize) -> T {
        self.change(|list| list.swap_remove(index))
    }

    fn retain(&mut self, keeps: impl FnMut(&T) -> bool) {
        self.change(|list| list.retain(keeps));
    }

    fn extend_from_slice(&mut self, items: &[T]) -> Result<(), AllocError>
    where
        T: Clone,
    {
        self.change(|list| list.extend_from_slice(items));
        Ok(())
    }

    fn try_split_off(&mut self, at: usize) -> Result<Vec<T>, AllocError> {
        Ok(Vec::from(self.change(|list| list.split_off(at))))
    }

    fn try_append(&mut self, other: &mut Vec<T>) -> Result<(), AllocError> {
        let items = std::mem::replace(other, Vec::new(Global)).into_std();
        self.change(|list| list.extend(items));
        Ok(())
    }
}

impl<T> ListCalls<T> for Vec<T> {
    fn change<R>(&mut self, change: impl FnOnce(&mut std::vec::Vec<T>) -> R) -> R {
        let mut list = std::mem::replace(self, Vec::new(Global)).into_std();
        let result = change(&mut list);
        *self = Vec::from(list);
        result
    }
}

/// Walks over slices, whose names are in the package those of the walks that lend.
pub trait SliceCalls<T> {
    fn lending_iter_mut(&mut self) -> std::slice::IterMut<'_, T>;
    fn lending_chunks_mut(&mut self, size: usize) -> std::slice::ChunksMut<'_, T>;
}

impl<T> SliceCalls<T> for [T] {
    fn lending_iter_mut(&mut self) -> std::slice::IterMut<'_, T> {
        self.iter_mut()
    }

    fn lending_chunks_mut(&mut self, size: usize) -> std::slice::ChunksMut<'_, T> {
        self.chunks_mut(size)
    }
}
