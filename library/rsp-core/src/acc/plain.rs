use crate::acc::{Acc, Addends, Clamp, Part};
use crate::lanes::VReg;

/// The accumulators as eight whole numbers from -2^47 to 2^47 - 1, as the rules state them.
#[derive(Clone, Copy, PartialEq, Eq, Debug)]
pub struct PlainAcc {
    numbers: [i64; 8],
}

impl Acc for PlainAcc {
    fn zero() -> Self {
        PlainAcc { numbers: [0; 8] }
    }

    fn replace(&mut self, addends: &Addends) {
        self.numbers = whole_numbers(addends);
    }

    fn add(&mut self, addends: &Addends) {
        let added = whole_numbers(addends);
        let mut numbers = [0; 8];
        for i in 0..8 {
            numbers[i] = wrap48(self.numbers[i] + added[i]);
        }
        self.numbers = numbers;
    }

    fn set_low(&mut self, low: &VReg) {
        let mut numbers = [0; 8];
        for i in 0..8 {
            numbers[i] = with_low(self.numbers[i], low.lane(i));
        }
        self.numbers = numbers;
    }

    fn part(&self, part: Part) -> VReg {
        let mut lanes = [0; 8];
        for i in 0..8 {
            lanes[i] = part_of(part, self.numbers[i]);
        }
        VReg::from_array(lanes)
    }

    fn clamp(&self, clamp: Clamp) -> VReg {
        let mut lanes = [0; 8];
        for i in 0..8 {
            lanes[i] = clamp_of(clamp, self.numbers[i]);
        }
        VReg::from_array(lanes)
    }
}

/// The signed value of `n` modulo 2^48: from -2^47 to 2^47 - 1.
fn wrap48(n: i64) -> i64 {
    (n + (1 << 47)).rem_euclid(1 << 48) - (1 << 47)
}

/// The addends as whole numbers.
fn whole_numbers(addends: &Addends) -> [i64; 8] {
    let (high, middle, low) = addends.planes();
    let mut numbers = [0; 8];
    for i in 0..8 {
        numbers[i] = join(high.lane(i), middle.lane(i), low.lane(i));
    }
    numbers
}

/// The number with these high, middle and low sixteen bits.
fn join(high: u16, middle: u16, low: u16) -> i64 {
    let bits = high as i64 * 0x1_0000_0000 + middle as i64 * 0x1_0000 + low as i64;
    if high < 32768 {
        bits
    } else {
        bits - 0x1_0000_0000_0000
    }
}

/// A number with its low sixteen bits replaced.
fn with_low(number: i64, low: u16) -> i64 {
    number - number.rem_euclid(65536) + low as i64
}

/// The low sixteen bits of a number.
fn low16(n: i64) -> u16 {
    n.rem_euclid(65536) as u16
}

/// The high, middle or low sixteen bits of a number.
fn part_of(part: Part, number: i64) -> u16 {
    match part {
        Part::High => low16(number.div_euclid(1 << 32)),
        Part::Middle => low16(number.div_euclid(1 << 16)),
        Part::Low => low16(number),
    }
}

/// A number clamped to sixteen bits.
fn clamp_of(clamp: Clamp, number: i64) -> u16 {
    clamped(clamp, number.div_euclid(65536), low16(number))
}

/// The clamp, by the number divided by 65536 and by its low sixteen bits.
fn clamped(clamp: Clamp, upper: i64, low: u16) -> u16 {
    match clamp {
        Clamp::Signed => low16(upper.clamp(-32768, 32767)),
        Clamp::Unsigned => {
            if upper < 0 {
                0
            } else if upper > 32767 {
                65535
            } else {
                low16(upper)
            }
        }
        Clamp::LowKind => {
            if upper < -32768 {
                0
            } else if upper > 32767 {
                65535
            } else {
                low
            }
        }
    }
}
