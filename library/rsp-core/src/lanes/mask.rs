use crate::lanes::VReg;
use crate::simd::prelude::*;

/// Eight truth values, one for each lane, as one lane mask.
#[derive(Clone, Copy, PartialEq)]
pub struct Mask8 {
    lanes: mask16x8,
}

impl Mask8 {
    /// The mask of these lanes.
    /// Requires that each lane is all ones (set) or 0 (clear), as a comparison returns them.
    #[inline(always)]
    pub fn from_simd(lanes: mask16x8) -> Self {
        Mask8 { lanes }
    }

    /// The eight lanes, each all ones if it is set, else 0.
    #[inline(always)]
    pub fn to_simd(self) -> mask16x8 {
        self.lanes
    }

    /// A copy of the mask through a vector register. A copy of the struct would go from memory to
    /// memory.
    #[inline(always)]
    pub(crate) fn read(&self) -> Self {
        Mask8 { lanes: self.lanes }
    }

    /// The lanes that are set in both.
    #[inline(always)]
    pub fn and(self, other: Self) -> Self {
        Mask8 {
            lanes: self.lanes & other.lanes,
        }
    }

    /// Lane i of `a` if lane i is set, else lane i of `b`.
    #[inline(always)]
    pub fn merge(self, a: &VReg, b: &VReg) -> VReg {
        VReg::from_simd(self.lanes.select(a.to_simd(), b.to_simd()))
    }

    /// The lanes that are set in one or both.
    #[inline(always)]
    pub fn or(self, other: Self) -> Self {
        Mask8 {
            lanes: self.lanes | other.lanes,
        }
    }

    /// The lanes that are clear.
    #[inline(always)]
    pub fn not(self) -> Self {
        Mask8 { lanes: !self.lanes }
    }

    /// All lanes set, or all clear.
    #[inline(always)]
    pub fn splat(value: bool) -> Self {
        Mask8 {
            lanes: mask16x8::splat(value),
        }
    }

    /// The lanes that are set in just one.
    #[inline(always)]
    pub fn xor(self, other: Self) -> Self {
        Mask8 {
            lanes: self.lanes ^ other.lanes,
        }
    }

    /// The number from 0 to 255 whose bit `i` is 1 if lane `i` is set.
    #[inline(always)]
    pub fn bits(self) -> u8 {
        self.lanes.to_bitmask() as u8
    }

    /// The mask whose lane `i` is set if bit `i` of the number is 1.
    #[inline(always)]
    pub fn from_bits(bits: u8) -> Self {
        let powers = u16x8::from_array([1, 2, 4, 8, 16, 32, 64, 128]);
        Mask8::from_simd((u16x8::splat(u16::from(bits)) & powers).simd_ne(u16x8::splat(0)))
    }
}
