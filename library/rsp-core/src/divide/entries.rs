use crate::divide::tables::{RECIPROCALS, ROOTS};

/// Entry `i`, below 512, of the reciprocal table: `(2^34 / (512 + i) + 1) / 256` modulo 65536, but
/// FFFF hex for `i` = 0.
#[inline]
pub fn rcp_entry(i: usize) -> u16 {
    RECIPROCALS[i]
}

/// Entry `i`, below 512, of the root table: `b / 2` modulo 65536. b is the greatest number for
/// which `a * b * b` is below 2^44; the radicand a is `512 + i` for an even `i`, and `(512 + i) /
/// 2` for an odd one.
#[inline]
pub fn rsq_entry(i: usize) -> u16 {
    ROOTS[i]
}
