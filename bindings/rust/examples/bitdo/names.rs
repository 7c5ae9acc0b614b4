//! What the program names of the package.

pub use fehimbary::cells::{Exclusive, Shared};
pub use fehimbary::index::Window;
pub use fehimbary::memory::{AllocError, Allocator, Vec};
pub use fehimbary::order::{HiLo, Lsb0, Msb0, SliceOrder};
pub use fehimbary::run::{run, Op, Refusal, Reply, RunError, Step};
pub use fehimbary::store::BitStore;

/// A request that failed with what it was for.
pub struct AllocFailed<T>(std::marker::PhantomData<T>);
