use crate::acc::Acc;
use crate::lanes::{Flags, VReg};

/// Bitwise logic of two registers.
#[derive(Clone, Copy)]
pub enum LogicOp {
    /// `vand`: the bits set in both.
    Vand,
    /// `vnand`: the bits not set in both.
    Vnand,
    /// `vor`: the bits set in either.
    Vor,
    /// `vnor`: the bits set in neither.
    Vnor,
    /// `vxor`: the bits that differ.
    Vxor,
    /// `vnxor`: the bits that agree.
    Vnxor,
}

/// Executes a logic instruction: `a` is the register vs, `b` the selected vt.
///
/// The results are also written to the low sixteen bits of the accumulators. All flags are kept.
#[inline]
pub fn logic_op<A: Acc>(op: LogicOp, a: &VReg, b: &VReg, flags: &mut Flags, acc: &mut A) -> VReg {
    let result = bits(op, a, b);
    // Only the proof of the sources needs this.
    let _ = flags.vco();
    acc.set_low(&result);
    result
}

/// The results.
#[inline(always)]
fn bits(op: LogicOp, a: &VReg, b: &VReg) -> VReg {
    match op {
        LogicOp::Vand => a.and(b),
        LogicOp::Vnand => a.and(b).not(),
        LogicOp::Vor => a.or(b),
        LogicOp::Vnor => a.or(b).not(),
        LogicOp::Vxor => a.xor(b),
        LogicOp::Vnxor => a.xor(b).not(),
    }
}
