//! The add, compare, clip, merge and logic instructions of the vector unit, over any implementation
//! of the accumulators.
//!
//! Each public call takes an operation, the register vs, the selected vt, the flags and the
//! accumulators, and returns the register that is written to vd. It refuses nothing.

mod adds;
mod clip_parts;
mod clips;
mod logic;
mod selects;

pub use crate::lanes::Flags;
pub use adds::{AddOp, add_op};
pub use clips::{ClipOp, clip_op};
pub use logic::{LogicOp, logic_op};
pub use selects::{MergeOp, SelectOp, merge_op, select_op};
