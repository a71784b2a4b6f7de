use crate::acc::{Acc, Part};
use crate::lanes::{Mask8, VReg, u16x8};

/// What is written or added to the eight accumulators: eight numbers from -2^47 to 2^47 - 1, as
/// three planes of sixteen bits.
pub struct Addends {
    high: u16x8,
    middle: u16x8,
    low: u16x8,
}

impl Addends {
    /// Eight zeros.
    #[inline(always)]
    pub fn zero() -> Self {
        let zeros = VReg::splat(0);
        Addends::from_planes(&zeros, &zeros, &zeros)
    }

    /// The numbers with these high, middle and low sixteen bits, lane by lane.
    #[inline(always)]
    pub fn from_planes(high: &VReg, middle: &VReg, low: &VReg) -> Self {
        Addends {
            high: high.to_simd(),
            middle: middle.to_simd(),
            low: low.to_simd(),
        }
    }

    /// The numbers of eight accumulators, whatever the implementation. [`Acc::replace`] with them
    /// restores the accumulators.
    #[inline(always)]
    pub fn of<A: Acc>(acc: &A) -> Self {
        let high = acc.part(Part::High);
        let middle = acc.part(Part::Middle);
        let low = acc.part(Part::Low);
        Addends::from_planes(&high, &middle, &low)
    }

    /// The high, middle and low sixteen bits of each number.
    #[inline(always)]
    pub(crate) fn planes(&self) -> (VReg, VReg, VReg) {
        (
            VReg::from_simd(self.high),
            VReg::from_simd(self.middle),
            VReg::from_simd(self.low),
        )
    }

    /// The low sixteen bits of each number.
    #[inline(always)]
    pub fn low(&self) -> VReg {
        VReg::from_simd(self.low)
    }

    /// Writes the low sixteen bits of each number. The high and middle ones are kept.
    #[inline(always)]
    pub fn set_low(&mut self, low: &VReg) {
        self.low = low.to_simd();
    }

    /// The sums with other numbers, each modulo 2^48 as a signed value.
    #[inline(always)]
    pub(crate) fn plus(&self, other: &Addends) -> Addends {
        let (a_high, a_middle, a_low) = self.planes();
        let (b_high, b_middle, b_low) = other.planes();
        let (low, carry) = a_low.add_carrying(&b_low, Mask8::splat(false));
        let (middle, carry) = a_middle.add_carrying(&b_middle, carry);
        let (high, _) = a_high.add_carrying(&b_high, carry);
        Addends::from_planes(&high, &middle, &low)
    }
}
