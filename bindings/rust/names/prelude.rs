#[cfg(feature = "alloc")]
pub use crate::memory::{AllocError, TryExtend};
pub use crate::view::BitView;
#[cfg(feature = "alloc")]
pub use crate::boxed::BitBox;
#[cfg(feature = "alloc")]
pub use crate::{bitbox, bitvec};
pub use crate::order::LocalBits;
pub use crate::aliased::BitCells;
pub use crate::view::{AsBits, AsMutBits};
pub use crate::{bitarr, bits, BitArr};
