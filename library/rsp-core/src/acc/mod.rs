//! The vector unit's accumulators: eight lanes of 48 bits.

mod acc;
mod addends;
mod parts;
mod plain;
mod planes;

pub use acc::Acc;
pub use addends::Addends;
pub use parts::{Clamp, Part};
pub use plain::PlainAcc;
pub use planes::PlaneAcc;
