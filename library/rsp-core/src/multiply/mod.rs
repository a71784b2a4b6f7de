//! The vector unit's twelve multiplies, VSAR, and the four instructions for MPEG coefficients, over
//! any implementation of the accumulators.

mod mpeg;
mod multiplies;
mod op;
mod products;

pub use mpeg::{mpeg_op, round_op};
pub use multiplies::{multiply, sar};
pub use op::{MpegOp, MultiplyOp, RoundOp};
