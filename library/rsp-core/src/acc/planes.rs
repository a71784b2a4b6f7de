// Each clamp is a selection: the sign of the high plane, and whether that plane is the sign
// extension of the middle one, decide which of three values a lane takes. Packing two planes as
// numbers of 32 bits would need wider lanes.

use crate::acc::{Acc, Addends, Clamp, Part};
use crate::lanes::{VReg, u16x8};

/// The accumulators as three planes: lane i of `high`, `middle` and `low` is bits 47 to 32, 31 to
/// 16 and 15 to 0 of accumulator i.
pub struct PlaneAcc {
    high: u16x8,
    middle: u16x8,
    low: u16x8,
}

impl PlaneAcc {
    /// The high, middle and low sixteen bits of each accumulator, in this order.
    #[inline(always)]
    pub fn planes(&self) -> [VReg; 3] {
        let high = VReg::from_simd(self.high);
        let middle = VReg::from_simd(self.middle);
        let low = VReg::from_simd(self.low);
        [high, middle, low]
    }

    /// The accumulators as addends.
    #[inline(always)]
    fn as_addends(&self) -> Addends {
        let high = VReg::from_simd(self.high);
        let middle = VReg::from_simd(self.middle);
        let low = VReg::from_simd(self.low);
        Addends::from_planes(&high, &middle, &low)
    }
}

impl Acc for PlaneAcc {
    #[inline(always)]
    fn zero() -> Self {
        PlaneAcc {
            high: u16x8::splat(0),
            middle: u16x8::splat(0),
            low: u16x8::splat(0),
        }
    }

    #[inline(always)]
    fn replace(&mut self, addends: &Addends) {
        let (high, middle, low) = addends.planes();
        self.high = high.to_simd();
        self.middle = middle.to_simd();
        self.low = low.to_simd();
    }

    #[inline(always)]
    fn add(&mut self, addends: &Addends) {
        let sums = self.as_addends().plus(addends);
        self.replace(&sums);
    }

    #[inline(always)]
    fn set_low(&mut self, low: &VReg) {
        self.low = low.to_simd();
    }

    #[inline(always)]
    fn part(&self, part: Part) -> VReg {
        match part {
            Part::High => VReg::from_simd(self.high),
            Part::Middle => VReg::from_simd(self.middle),
            Part::Low => VReg::from_simd(self.low),
        }
    }

    /// An accumulator fits if its high plane is the sign extension of its middle one. If it
    /// doesn't, the high plane's sign says at which end it is clamped.
    #[inline(always)]
    fn clamp(&self, clamp: Clamp) -> VReg {
        let high = VReg::from_simd(self.high);
        let middle = VReg::from_simd(self.middle);
        let zeros = VReg::splat(0);
        let ones = VReg::splat(0xffff);
        let is_negative = high.is_negative();
        let extension = middle.is_negative().merge(&ones, &zeros);
        let fits = high.is_equal(&extension);
        match clamp {
            Clamp::Signed => {
                let least = VReg::splat(0x8000);
                let most = VReg::splat(0x7fff);
                let ends = is_negative.merge(&least, &most);
                fits.merge(&middle, &ends)
            }
            Clamp::Unsigned => {
                let inside = fits.merge(&middle, &ones);
                is_negative.merge(&zeros, &inside)
            }
            Clamp::LowKind => {
                let low = VReg::from_simd(self.low);
                let ends = is_negative.merge(&zeros, &ones);
                fits.merge(&low, &ends)
            }
        }
    }
}
