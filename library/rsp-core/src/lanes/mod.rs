//! The lanes of the vector unit: registers of eight 16-bit lanes, masks of eight truth values, and
//! the flags, which are five masks.
//!
//! Lane 0 is the first. `each_lane f` is the list of eight whose member i is `f i`.
//!
//! A computing instruction is defined by a rule for one lane: from the operands' lanes and the
//! lane's flags to the result, the low sixteen bits of the accumulator, and the flags after it.
//! `results_of`, `lows_of` and `flags_after` apply a rule to all eight lanes. `flags_at f i` is the
//! flags of lane i, and `all_flags g` the flags whose lane i is `g i`.
//!
//! Each operation works on whole vectors.

mod bytes;
mod bytes16;
mod flags;
mod mask;
mod shuffle;
mod signed;
mod vreg;

/// Eight 16-bit lanes, for the planes of accumulators.
pub use crate::simd::u16x8;
pub use bytes16::Bytes16;
pub use flags::Flags;
pub use mask::Mask8;
pub use shuffle::select;
pub use vreg::VReg;
