//! Numbers of 16, 32 and 48 bits: signed values, the high, middle and low parts of an accumulator,
//! and the clamp to 16 bits.
//!
//! Of code there is only [`sign_extend`], which scalar instructions and moves share.
//!
//! It is a crate since an `impl Model` may cite lemmas of other crates only.

mod sign;

pub use sign::sign_extend;
