//! The instructions for MPEG coefficients. The addends of all lanes are put into a register first,
//! 0 for a lane that adds nothing, so one addition serves all eight.

use crate::acc::{Acc, Addends, Clamp, Part};
use crate::lanes::{Mask8, VReg};
use crate::multiply::op::{MpegOp, RoundOp};
use crate::multiply::products::signed_times_65536;

/// The lanes as signed values.
#[inline(always)]
fn signed(lanes: &VReg) -> Addends {
    let sign = lanes
        .is_negative()
        .merge(&VReg::splat(0xffff), &VReg::new());
    Addends::from_planes(&sign, &sign, lanes)
}

/// The lanes as signed values, times 65536.
#[inline(always)]
fn shifted(lanes: &VReg) -> Addends {
    let zeros = VReg::new();
    let sign = lanes.is_negative().merge(&VReg::splat(0xffff), &zeros);
    Addends::from_planes(&sign, lanes, &zeros)
}

/// What VRNDP and VRNDN add, from the lanes of the selected vt.
#[inline(always)]
fn rounding(odd: bool, lanes: &VReg) -> Addends {
    if odd { shifted(lanes) } else { signed(lanes) }
}

/// The lanes whose accumulator is negative.
#[inline(always)]
fn negative<A: Acc>(acc: &A) -> Mask8 {
    acc.part(Part::High).is_negative()
}

/// The lanes whose accumulator VRNDP or VRNDN adds to.
#[inline(always)]
fn rounding_lanes<A: Acc>(op: RoundOp, acc: &A) -> Mask8 {
    let negative = negative(acc);
    match op {
        RoundOp::Vrndp => negative.not(),
        RoundOp::Vrndn => negative,
    }
}

/// VRNDP or VRNDN: `b` is the selected vt, and `odd` is true if the number of vs is odd.
///
/// VRNDP adds to the accumulators that are 0 or more, VRNDN to the negative ones. What is added is
/// the lane of b as a signed value, times 65536 if `odd`; the sum is taken modulo 2^48, as a signed
/// value. The result is the signed clamp of all eight accumulators after it.
#[inline(always)]
pub fn round_op<A: Acc>(op: RoundOp, odd: bool, b: &VReg, acc: &mut A) -> VReg {
    let lanes = rounding_lanes(op, acc).merge(b, &VReg::new());
    acc.add(&rounding(odd, &lanes));
    acc.clamp(Clamp::Signed)
}

/// What VMACQ adds to the accumulators' bits 47 to 16: 32, 0 or -32, as sixteen bits.
#[inline(always)]
fn steps<A: Acc>(acc: &A) -> VReg {
    let zeros = VReg::new();
    let high = acc.part(Part::High);
    let middle = acc.part(Part::Middle);
    let is_clear = middle.and(&VReg::splat(32)).is_zero();
    let is_small = high.is_zero().and(middle.is_below(&VReg::splat(32)));
    let step = high
        .is_negative()
        .merge(&VReg::splat(32), &VReg::splat(0xffe0));
    is_small.merge(&zeros, &is_clear.merge(&step, &zeros))
}

/// The accumulators' bits 47 to 16, halved and rounded down, times 65536.
///
/// A product with 8000 hex is a shift to the right by one bit. Its low half holds the bit that is
/// shifted out, for the plane below.
#[inline(always)]
fn halves<A: Acc>(acc: &A) -> Addends {
    let zeros = VReg::new();
    let top = VReg::splat(0x8000);
    let high = acc.part(Part::High);
    let middle = acc.part(Part::Middle);
    let (upper, carried) = high.product(&top);
    let (lower, _) = middle.product(&top);
    let upper = upper.add(&high.is_negative().merge(&top, &zeros));
    Addends::from_planes(&upper, &lower.add(&carried), &zeros)
}

/// The result of VMULQ or VMACQ, from the accumulators after it: the halves are clamped as
/// accumulators of their own.
#[inline(always)]
fn halved<A: Acc>(acc: &A) -> VReg {
    let mut other = A::zero();
    other.replace(&halves(acc));
    let clamped = other.clamp(Clamp::Signed);
    clamped.and(&VReg::splat(0xfff0))
}

/// VMULQ or VMACQ: `a` is the register vs, `b` the selected vt.
///
/// VMULQ: p is the product of the lanes as signed values, plus 31 if that is negative; the
/// accumulator becomes p times 65536. VMACQ: p is bits 47 to 16 of the accumulator as a signed
/// value; if its bit 5 is clear, 32 is added to a negative p, and subtracted from a p of 32 or
/// more; the accumulator's low sixteen bits are kept.
///
/// The result is half of p, rounded down, clamped to 16 bits, with its low four bits cleared.
#[inline(always)]
pub fn mpeg_op<A: Acc>(op: MpegOp, a: &VReg, b: &VReg, acc: &mut A) -> VReg {
    match op {
        MpegOp::Vmulq => multiply_rounded(a, b, acc),
        MpegOp::Vmacq => acc.add(&shifted(&steps(acc))),
    }
    halved(acc)
}

/// VMULQ's accumulators: the products, plus 31 if they are negative, times 65536.
#[inline(always)]
fn multiply_rounded<A: Acc>(a: &VReg, b: &VReg, acc: &mut A) {
    acc.replace(&signed_times_65536(a, b));
    let rounding = negative(acc).merge(&VReg::splat(31), &VReg::new());
    acc.add(&shifted(&rounding));
}
