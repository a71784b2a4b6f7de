use crate::lanes::{Mask8, VReg};

/// The lanes that are negative in just one of both.
#[inline(always)]
pub(crate) fn signs_differ(a: &VReg, b: &VReg) -> Mask8 {
    a.is_negative().xor(b.is_negative())
}

/// The sum in lanes whose signs differ, else the difference: a - (-b) or a - b. Both fit into 16
/// bits as signed values, so no bit is lost.
#[inline(always)]
pub(crate) fn sum_or_difference(a: &VReg, b: &VReg) -> VReg {
    a.subtract(&signs_differ(a, b).merge(&b.negate(), b))
}

/// Lane i of `a` if lane i of `at` is set, else lane i of `b`.
#[inline(always)]
pub(crate) fn choose(at: Mask8, a: Mask8, b: Mask8) -> Mask8 {
    at.and(a).or(at.not().and(b))
}

/// `a` and `b`, exchanged in the lanes that are set in `at`.
#[inline(always)]
pub(crate) fn exchanged(at: Mask8, a: Mask8, b: Mask8) -> (Mask8, Mask8) {
    let difference = a.xor(b).and(at);
    (a.xor(difference), b.xor(difference))
}
