// The operations of this crate, each named as its instruction.

/// The divides, VMOV, and the two instructions of their group that change nothing.
#[derive(Clone, Copy)]
pub enum DivideOp {
    /// `vrcp`: the low half of the reciprocal of a 16-bit number.
    Vrcp,
    /// `vrcpl`: the low half of the reciprocal of a 32-bit number, whose high half VRCPH loaded.
    Vrcpl,
    /// `vrcph`: the high half of the last quotient; it also loads the high half of an operand.
    Vrcph,
    /// `vmov`: copies a lane.
    Vmov,
    /// `vrsq`: the low half of the inverse square root of a 16-bit number.
    Vrsq,
    /// `vrsql`: the low half of the inverse square root of a 32-bit number, whose high half VRSQH
    /// loaded.
    Vrsql,
    /// `vrsqh`: the same as `vrcph`.
    Vrsqh,
    /// `vnop`: changes nothing.
    Vnop,
    /// `vnull`: changes nothing.
    Vnull,
}
