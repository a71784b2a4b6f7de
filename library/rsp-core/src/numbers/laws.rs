/// `s16`, `s32` and `s48` give signed values. Each lies in its range, differs from its argument by
/// a multiple of 2^16, 2^32 or 2^48, and is the only number that does both.
pub fn signed_values() {}

/// The high, middle and low sixteen bits of a joined accumulator are those that it was joined from.
pub fn parts_of_join() {}
