use crate::acc::{Addends, Clamp, Part};
use crate::lanes::VReg;

/// The vector unit's eight accumulators: a signed number of 48 bits for each lane.
///
/// `PlainAcc` keeps them as whole numbers, `PlaneAcc` as three vectors of sixteen bits. A caller
/// sees only the list `numbers`, so both implementations give the same answers.
pub trait Acc {
    //  The accumulators, lane 0 first, each from -2^47 to 2^47 - 1.

    /// Eight zeros.
    fn zero() -> Self;

    /// Replaces each accumulator by its addend.
    fn replace(&mut self, addends: &Addends);

    /// Adds its addend to each accumulator: the sum modulo 2^48, as a signed value.
    fn add(&mut self, addends: &Addends);

    /// Writes the low sixteen bits of each accumulator. The high and middle ones are kept.
    fn set_low(&mut self, low: &VReg);

    /// The high, middle or low sixteen bits of each accumulator.
    fn part(&self, part: Part) -> VReg;

    /// Each accumulator clamped to sixteen bits.
    fn clamp(&self, clamp: Clamp) -> VReg;
}
