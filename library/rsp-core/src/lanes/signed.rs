//! Lanes as signed values.

use crate::lanes::{Mask8, VReg};
use crate::simd::prelude::*;

/// The lanes as signed values, in 16 bits.
#[inline(always)]
fn signed(v: &VReg) -> i16x8 {
    i16x8::from_le_bytes(v.to_simd().to_le_bytes())
}

/// The lanes as signed values, in 32 bits.
#[inline(always)]
fn wide(v: &VReg) -> i32x8 {
    signed(v).cast::<i32>()
}

/// The lesser of both lanes as signed values, clamped to 32766 so that a carry can be added without
/// overflow.
#[inline(always)]
fn clamped_lesser(a: &VReg, b: &VReg) -> VReg {
    let lesser = signed(a).simd_min(signed(b)).simd_min(i16x8::splat(0x7ffe));
    VReg::from_simd(u16x8::from_le_bytes(lesser.to_le_bytes()))
}

/// The greater of both lanes as signed values, in 32 bits.
#[inline(always)]
fn greater(a: &VReg, b: &VReg) -> i32x8 {
    signed(a).simd_max(signed(b)).cast::<i32>()
}

/// The numbers clamped to -32768..=32767. If they are sums of two lanes, LLVM compiles sum and
/// clamp to one instruction.
#[inline(always)]
fn saturated(numbers: i32x8) -> VReg {
    let saturated = numbers
        .simd_max(i32x8::splat(-32768))
        .simd_min(i32x8::splat(32767));
    VReg::from_simd(u16x8::from_le_bytes(saturated.cast::<i16>().to_le_bytes()))
}

impl VReg {
    /// The sums of the lanes as signed values and a carry, clamped to -32768..=32767.
    /// The lesser lane is clamped to 32766, and the carry is added to it. If that lane is 32767,
    /// both are, and the clamped sum is 32767 in any case.
    #[inline(always)]
    pub fn add_clamped(&self, other: &VReg, carry: Mask8) -> VReg {
        let lesser = clamped_lesser(self, other);
        // -1 where the carry is set, else 0. To subtract it adds the carry.
        let minus_carry = carry.merge(&VReg::splat(0xffff), &VReg::new());
        let carried = lesser.subtract(&minus_carry);
        saturated(greater(self, other) + wide(&carried))
    }

    /// The high halves of the products of the lanes as signed values. LLVM compiles the body to one
    /// instruction.
    #[inline(always)]
    pub fn signed_product_high(&self, other: &VReg) -> VReg {
        let product = signed(self)
            .cast::<i32>()
            .strict_mul(signed(other).cast::<i32>());
        let high = (product >> i32x8::splat(16)).cast::<i16>();
        VReg::from_simd(u16x8::from_le_bytes(high.to_le_bytes()))
    }

    /// All ones in each lane that is negative as a signed value, else 0.
    #[inline(always)]
    pub fn sign(&self) -> VReg {
        let sign = signed(self) >> i16x8::splat(15);
        VReg::from_simd(u16x8::from_le_bytes(sign.to_le_bytes()))
    }
}
