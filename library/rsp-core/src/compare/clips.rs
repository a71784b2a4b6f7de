use crate::acc::Acc;
use crate::compare::clip_parts::{choose, exchanged, signs_differ, sum_or_difference};
use crate::lanes::{Flags, Mask8, VReg};

/// Clips of a register by another, lane by lane: to the range from -b to b.
#[derive(Clone, Copy)]
pub enum ClipOp {
    /// `vcl`: the low halves of 32-bit numbers, by the flags that `vch` left.
    Vcl,
    /// `vch`: the high halves of 32-bit numbers, or numbers of 16 bits.
    Vch,
    /// `vcr`: in one's complement, from the complement of b to b.
    Vcr,
}

/// VCL: if carry is set the bound is -b, and `compare` says whether it is the result; else the
/// bound is b, and `clip` says it. `compare` is new if carry alone is set, and `clip` if neither
/// carry nor not-equal is.
#[inline(always)]
fn vcl(a: &VReg, b: &VReg, flags: &mut Flags) -> VReg {
    let clear = Mask8::splat(false);
    let (sum, passes) = a.add_carrying(b, clear);
    let is_zero = sum.is_zero();
    let fits = passes.not();
    let is_small = is_zero.and(fits).or(flags.extra.and(is_zero.or(fits)));
    let carry_alone = flags.carry.and(flags.differ.not());
    let compare = choose(carry_alone, is_small, flags.compare);
    let neither = flags.carry.or(flags.differ).not();
    let clip = choose(neither, a.is_below(b).not(), flags.clip);
    let bound = flags.carry.merge(&b.negate(), b);
    let result = choose(flags.carry, compare, clip).merge(&bound, a);
    *flags = Flags {
        carry: clear,
        differ: clear,
        compare,
        clip,
        extra: clear,
    };
    result
}

/// VCH: if the signs differ the bound is -b, and `compare` says whether it is the result; else the
/// bound is b, and `clip` says it.
#[inline(always)]
fn vch(a: &VReg, b: &VReg, flags: &mut Flags) -> VReg {
    let apart = signs_differ(a, b);
    let number = sum_or_difference(a, b);
    let is_zero = number.is_zero();
    let is_negative = number.is_negative();
    let extra = apart.and(number.is_equal(&VReg::splat(0xffff)));
    let taken = is_zero.or(is_negative.xor(apart).not());
    let (compare, clip) = exchanged(apart, b.is_negative(), taken);
    let bound = apart.merge(&b.negate(), b);
    let result = taken.merge(&bound, a);
    *flags = Flags {
        carry: apart,
        differ: is_zero.or(extra).not(),
        compare,
        clip,
        extra,
    };
    result
}

/// VCR: as [`vch`], but with the complement of b, which is -b - 1, in place of -b: it is the result
/// if the sum is below 0.
#[inline(always)]
fn vcr(a: &VReg, b: &VReg, flags: &mut Flags) -> VReg {
    let apart = signs_differ(a, b);
    let is_negative = sum_or_difference(a, b).is_negative();
    let taken = is_negative.xor(apart).not();
    let (compare, clip) = exchanged(apart, b.is_negative(), taken);
    let bound = apart.merge(&b.not(), b);
    let result = taken.merge(&bound, a);
    let clear = Mask8::splat(false);
    *flags = Flags {
        carry: clear,
        differ: clear,
        compare,
        clip,
        extra: clear,
    };
    result
}

/// The results of a clip, and the flags after it.
#[inline(always)]
fn clip(op: ClipOp, a: &VReg, b: &VReg, flags: &mut Flags) -> VReg {
    match op {
        ClipOp::Vcl => vcl(a, b, flags),
        ClipOp::Vch => vch(a, b, flags),
        ClipOp::Vcr => vcr(a, b, flags),
    }
}

/// Executes VCL, VCH or VCR: `a` is the register vs, `b` the selected vt.
///
/// A lane of the result is that of `a`, or the bound that `b` sets if `a` passes it. The result is
/// also written to the low sixteen bits of the accumulators. VCL reads the flags that VCH left: the
/// two together clip numbers of 32 bits.
#[inline]
pub fn clip_op<A: Acc>(op: ClipOp, a: &VReg, b: &VReg, flags: &mut Flags, acc: &mut A) -> VReg {
    let result = clip(op, a, b, flags);
    acc.set_low(&result);
    result
}
