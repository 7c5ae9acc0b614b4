pub use crate::laws::check;
pub use crate::view::LocalBits;
#[cfg(feature = "alloc")]
pub(crate) use crate::proved::segments::with_next;
