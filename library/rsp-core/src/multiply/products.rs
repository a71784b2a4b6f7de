//! Products of lanes as addends, from their halves of sixteen bits.

use crate::acc::Addends;
use crate::lanes::VReg;

/// The high and the low halves of the products of the lanes as signed values.
#[inline(always)]
pub(crate) fn signed_product(a: &VReg, b: &VReg) -> (VReg, VReg) {
    let high = a.signed_product_high(b);
    let (_, low) = a.product(b);
    (high, low)
}

/// The high and the low halves of the products of a's lanes as signed values and b's as unsigned
/// ones.
#[inline(always)]
pub(crate) fn mixed_product(a: &VReg, b: &VReg) -> (VReg, VReg) {
    let (high, low) = a.product(b);
    let high = high.subtract(&a.is_negative().merge(b, &VReg::splat(0)));
    (high, low)
}

/// 1 for each lane whose top bit is set, else 0: the carry out of the doubled lane.
#[inline(always)]
fn top_bit(lanes: &VReg) -> VReg {
    lanes.is_negative().merge(&VReg::splat(1), &VReg::splat(0))
}

/// The signed numbers of 32 bits with these halves.
#[inline(always)]
fn from_halves(high: &VReg, low: &VReg) -> Addends {
    Addends::from_planes(&high.sign(), high, low)
}

/// The halves of twice the number with these halves, modulo 2^32.
#[inline(always)]
fn doubled(high: &VReg, low: &VReg) -> (VReg, VReg) {
    (high.add(high).add(&top_bit(low)), low.add(low))
}

/// The high plane of twice a product, or of twice a product plus 32768: all ones if that is
/// negative, else 0. `high` is the high half of the product, `middle` the middle plane of the
/// addend.
///
/// The sign of `middle` is right, unless the addend doesn't fit into 32 bits; then the addend is
/// positive, and `high` is above 3FFE hex. The sign of `high` would do too, but LLVM takes it from
/// products of 32 bits.
#[inline(always)]
fn doubled_sign(high: &VReg, middle: &VReg) -> VReg {
    let is_large = VReg::splat(0x3ffe).is_below_signed(high);
    is_large.merge(&VReg::new(), &middle.sign())
}

/// Twice the products of the lanes as signed values.
#[inline(always)]
pub(crate) fn fraction(a: &VReg, b: &VReg) -> Addends {
    let (high, low) = signed_product(a, b);
    let (middle, low) = doubled(&high, &low);
    Addends::from_planes(&doubled_sign(&high, &middle), &middle, &low)
}

/// Twice the products of the lanes as signed values, plus 32768.
#[inline(always)]
pub(crate) fn rounded(a: &VReg, b: &VReg) -> Addends {
    let (high, low) = signed_product(a, b);
    let (middle, low) = doubled(&high, &low);
    let middle = middle.add(&top_bit(&low));
    let sign = doubled_sign(&high, &middle);
    Addends::from_planes(&sign, &middle, &low.add(&VReg::splat(0x8000)))
}

/// The products of the lanes as unsigned values, divided by 65536 and rounded down.
#[inline(always)]
pub(crate) fn unsigned_over_65536(a: &VReg, b: &VReg) -> Addends {
    let zeros = VReg::splat(0);
    let (high, _) = a.product(b);
    Addends::from_planes(&zeros, &zeros, &high)
}

/// The products of a's lanes as signed values and b's as unsigned ones.
#[inline(always)]
pub(crate) fn signed_by_unsigned(a: &VReg, b: &VReg) -> Addends {
    let (high, low) = mixed_product(a, b);
    from_halves(&high, &low)
}

/// The products of the lanes as signed values, times 65536.
#[inline(always)]
pub(crate) fn signed_times_65536(a: &VReg, b: &VReg) -> Addends {
    let (high, low) = signed_product(a, b);
    Addends::from_planes(&high, &low, &VReg::splat(0))
}
