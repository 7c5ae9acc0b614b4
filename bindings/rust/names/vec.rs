#[cfg(feature = "alloc")]
pub use crate::iterating::{Drain, IntoIter};
