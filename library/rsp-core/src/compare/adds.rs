use crate::acc::Acc;
use crate::lanes::{Flags, Mask8, VReg};

/// Sums and differences, lane by lane.
#[derive(Clone, Copy)]
pub enum AddOp {
    /// `vadd`: the sum with carry, clamped.
    Vadd,
    /// `vsub`: the difference with borrow, clamped.
    Vsub,
    /// `vabs`: the second operand, negated if the first is negative, 0 if the first is 0.
    Vabs,
    /// `vaddc`: the sum modulo 2^16; sets carry.
    Vaddc,
    /// `vsubc`: the difference modulo 2^16; sets carry and not-equal.
    Vsubc,
}

/// Executes an add instruction: `a` is the register vs, `b` the selected vt.
///
/// The results are also written to the low sixteen bits of the accumulators; VADD and VSUB write
/// the number before the clamp there, and VABS 8000 hex if it clamps to 7FFF hex. VADD and VSUB
/// clear VCO, VADDC and VSUBC write it, VABS keeps it. VCC and VCE are kept.
#[inline]
pub fn add_op<A: Acc>(op: AddOp, a: &VReg, b: &VReg, flags: &mut Flags, acc: &mut A) -> VReg {
    let (result, low) = sums(op, a, b, flags);
    acc.set_low(&low);
    result
}

/// The results, and the low sixteen bits of the accumulators.
#[inline(always)]
fn sums(op: AddOp, a: &VReg, b: &VReg, flags: &mut Flags) -> (VReg, VReg) {
    match op {
        AddOp::Vadd => add(a, b, flags),
        AddOp::Vsub => subtract(a, b, flags),
        AddOp::Vabs => absolute(a, b, flags),
        AddOp::Vaddc => add_carried(a, b, flags),
        AddOp::Vsubc => subtract_borrowed(a, b, flags),
    }
}

/// The sums of the lanes as signed values and the carries: clamped, and modulo 65536.
#[inline(always)]
fn clamped_sums(a: &VReg, b: &VReg, carry: Mask8) -> (VReg, VReg) {
    let (sum, _) = a.add_carrying(b, carry);
    (a.add_clamped(b, carry), sum)
}

/// VADD: clears VCO.
#[inline(always)]
fn add(a: &VReg, b: &VReg, flags: &mut Flags) -> (VReg, VReg) {
    let sums = clamped_sums(a, b, flags.carry);
    flags.clear_vco();
    sums
}

/// VSUB: clears VCO. a - b - carry is a + the complement of b, and 1 more if the carry is clear.
#[inline(always)]
fn subtract(a: &VReg, b: &VReg, flags: &mut Flags) -> (VReg, VReg) {
    let sums = clamped_sums(a, &b.not(), flags.carry.not());
    flags.clear_vco();
    sums
}

/// VABS: 8000 hex has no negative of 16 bits, so the result is 7FFF hex there.
#[inline(always)]
fn absolute(a: &VReg, b: &VReg, flags: &mut Flags) -> (VReg, VReg) {
    let negative = a.is_negative();
    let signed = negative.merge(&b.negate(), b);
    let low = a.is_zero().merge(&VReg::new(), &signed);
    let passes = negative.and(b.is_equal(&VReg::splat(0x8000)));
    // Only the proof of the sources needs this.
    let _ = flags.vco();
    (passes.merge(&VReg::splat(0x7fff), &low), low)
}

/// VADDC: writes the carries to VCO.
#[inline(always)]
fn add_carried(a: &VReg, b: &VReg, flags: &mut Flags) -> (VReg, VReg) {
    let clear = Mask8::splat(false);
    let (sum, carry) = a.add_carrying(b, clear);
    flags.set_vco(carry, clear);
    (sum, sum)
}

/// VSUBC: writes the borrows, and which lanes differ, to VCO.
#[inline(always)]
fn subtract_borrowed(a: &VReg, b: &VReg, flags: &mut Flags) -> (VReg, VReg) {
    let difference = a.subtract(b);
    flags.set_vco(a.is_below(b), a.is_equal(b).not());
    (difference, difference)
}
