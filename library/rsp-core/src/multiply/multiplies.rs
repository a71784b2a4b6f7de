use crate::acc::{Acc, Addends, Clamp, Part};
use crate::lanes::VReg;
use crate::multiply::op::MultiplyOp;
use crate::multiply::products::{
    fraction, rounded, signed_by_unsigned, signed_times_65536, unsigned_over_65536,
};

/// The addends of a multiply, from the lanes of a and b.
#[inline(always)]
fn addends(op: MultiplyOp, a: &VReg, b: &VReg) -> Addends {
    match op {
        MultiplyOp::Vmulf | MultiplyOp::Vmulu => rounded(a, b),
        MultiplyOp::Vmacf | MultiplyOp::Vmacu => fraction(a, b),
        MultiplyOp::Vmudl | MultiplyOp::Vmadl => unsigned_over_65536(a, b),
        MultiplyOp::Vmudm | MultiplyOp::Vmadm => signed_by_unsigned(a, b),
        MultiplyOp::Vmudn | MultiplyOp::Vmadn => signed_by_unsigned(b, a),
        MultiplyOp::Vmudh | MultiplyOp::Vmadh => signed_times_65536(a, b),
    }
}

/// Whether a multiply adds to the accumulators; else it replaces them.
#[inline(always)]
fn adds(op: MultiplyOp) -> bool {
    match op {
        MultiplyOp::Vmacf
        | MultiplyOp::Vmacu
        | MultiplyOp::Vmadl
        | MultiplyOp::Vmadm
        | MultiplyOp::Vmadn
        | MultiplyOp::Vmadh => true,
        _ => false,
    }
}

/// How a multiply clamps the accumulators to its result.
#[inline(always)]
fn clamp(op: MultiplyOp) -> Clamp {
    match op {
        MultiplyOp::Vmulu | MultiplyOp::Vmacu => Clamp::Unsigned,
        MultiplyOp::Vmudl | MultiplyOp::Vmudn | MultiplyOp::Vmadl | MultiplyOp::Vmadn => {
            Clamp::LowKind
        }
        _ => Clamp::Signed,
    }
}

/// One of the twelve multiplies: `a` is the register vs, `b` the selected vt.
///
/// The accumulators become the multiply's addends, or their sums with them, modulo 2^48 as signed
/// values. The result is the multiply's clamp of the accumulators after it.
#[inline(always)]
pub fn multiply<A: Acc>(op: MultiplyOp, a: &VReg, b: &VReg, acc: &mut A) -> VReg {
    let addends = addends(op, a, b);
    if adds(op) {
        acc.add(&addends);
    } else {
        acc.replace(&addends);
    }
    acc.clamp(clamp(op))
}

/// VSAR: the high, middle or low sixteen bits of the accumulators for element `e` 8, 9 or 10, zeros
/// for any other. The accumulators are kept.
#[inline(always)]
pub fn sar<A: Acc>(e: usize, acc: &A) -> VReg {
    match e {
        8 => acc.part(Part::High),
        9 => acc.part(Part::Middle),
        10 => acc.part(Part::Low),
        _ => VReg::splat(0),
    }
}
