//! The divide instructions: reciprocals and inverse square roots of one lane, VMOV, VNOP and VNULL.
//! The divider carries halves of 32-bit operands and quotients from one instruction to the next.

mod divider;
mod divides;
mod entries;
mod op;
mod quotients;
mod tables;

pub use divider::Divider;
pub use divides::divide_op;
pub use entries::{rcp_entry, rsq_entry};
pub use op::DivideOp;
pub use quotients::{reciprocal, root};
