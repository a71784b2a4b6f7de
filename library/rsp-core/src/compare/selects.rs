use crate::acc::Acc;
use crate::lanes::{Flags, Mask8, VReg};

/// Comparisons of lanes as signed values. The result is the lane of the first operand if the
/// comparison holds, else that of the second.
#[derive(Clone, Copy)]
pub enum SelectOp {
    /// `vlt`: the first is less; or both are equal, and carry and not-equal are set.
    Vlt,
    /// `veq`: both are equal, and not-equal is clear.
    Veq,
    /// `vne`: they differ, or not-equal is set.
    Vne,
    /// `vge`: the first is greater; or both are equal, and carry or not-equal is clear.
    Vge,
}

/// The merge instruction.
#[derive(Clone, Copy, PartialEq, Eq, Debug)]
pub enum MergeOp {
    /// `vmrg`: the lane of the first operand if compare is set, else that of the second.
    Vmrg,
}

/// Executes a comparison: `a` is the register vs, `b` the selected vt.
///
/// The result is the lane of a if the comparison holds, else that of b; it is also written to the
/// low sixteen bits of the accumulators. Compare becomes the answer, clip and VCO are cleared, VCE
/// is kept.
#[inline]
pub fn select_op<A: Acc>(op: SelectOp, a: &VReg, b: &VReg, flags: &mut Flags, acc: &mut A) -> VReg {
    let taken = taken(op, a, b, flags);
    flags.clear_vco();
    flags.set_vcc(taken, Mask8::splat(false));
    let result = taken.merge(a, b);
    acc.set_low(&result);
    result
}

/// Executes VMRG: `a` is the register vs, `b` the selected vt.
///
/// The result is the lane of a if compare is set, else that of b; it is also written to the low
/// sixteen bits of the accumulators. VCO is cleared, VCC and VCE are kept.
#[inline]
pub fn merge_op<A: Acc>(op: MergeOp, a: &VReg, b: &VReg, flags: &mut Flags, acc: &mut A) -> VReg {
    let result = match op {
        MergeOp::Vmrg => flags.compare.merge(a, b),
    };
    flags.clear_vco();
    acc.set_low(&result);
    result
}

/// The lanes for which the comparison holds.
#[inline(always)]
fn taken(op: SelectOp, a: &VReg, b: &VReg, flags: &Flags) -> Mask8 {
    match op {
        SelectOp::Vlt => is_below(a, b, flags),
        SelectOp::Veq => is_equal(a, b, flags),
        SelectOp::Vne => is_different(a, b, flags),
        SelectOp::Vge => is_at_least(a, b, flags),
    }
}

/// The lanes for which VLT holds.
#[inline(always)]
fn is_below(a: &VReg, b: &VReg, flags: &Flags) -> Mask8 {
    let both = flags.carry.and(flags.differ);
    a.is_below_signed(b).or(a.is_equal(b).and(both))
}

/// The lanes for which VEQ holds.
#[inline(always)]
fn is_equal(a: &VReg, b: &VReg, flags: &Flags) -> Mask8 {
    a.is_equal(b).and(flags.differ.not())
}

/// The lanes for which VNE holds.
#[inline(always)]
fn is_different(a: &VReg, b: &VReg, flags: &Flags) -> Mask8 {
    a.is_equal(b).not().or(flags.differ)
}

/// The lanes for which VGE holds.
#[inline(always)]
fn is_at_least(a: &VReg, b: &VReg, flags: &Flags) -> Mask8 {
    let both = flags.carry.and(flags.differ);
    b.is_below_signed(a).or(a.is_equal(b).and(both.not()))
}
