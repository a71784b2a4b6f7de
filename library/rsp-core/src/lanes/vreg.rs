use crate::lanes::Mask8;
use crate::simd::prelude::*;
use crate::support::{BigEndian, ByteOrder};

/// A vector register: eight 16-bit lanes in one vector.
#[derive(Clone, Copy, PartialEq, Eq, Debug)]
pub struct VReg {
    lanes: u16x8,
}

impl VReg {
    /// A register of zeros.
    #[inline(always)]
    pub fn new() -> Self {
        VReg::splat(0)
    }

    /// A register with the same number in all lanes.
    #[inline(always)]
    pub fn splat(value: u16) -> Self {
        VReg {
            lanes: u16x8::splat(value),
        }
    }

    /// The register with these lanes.
    #[inline(always)]
    pub fn from_simd(lanes: u16x8) -> Self {
        VReg { lanes }
    }

    /// The register with these lanes, lane 0 first.
    #[inline(always)]
    pub fn from_array(lanes: [u16; 8]) -> Self {
        VReg {
            lanes: u16x8::from_array(lanes),
        }
    }

    /// The register with these bytes. Byte 0 is the high byte of lane 0, byte 15 the low byte of
    /// lane 7.
    #[inline(always)]
    pub fn from_bytes(bytes: [u8; 16]) -> Self {
        VReg::from_array([
            BigEndian::read_u16(&[bytes[0], bytes[1]]),
            BigEndian::read_u16(&[bytes[2], bytes[3]]),
            BigEndian::read_u16(&[bytes[4], bytes[5]]),
            BigEndian::read_u16(&[bytes[6], bytes[7]]),
            BigEndian::read_u16(&[bytes[8], bytes[9]]),
            BigEndian::read_u16(&[bytes[10], bytes[11]]),
            BigEndian::read_u16(&[bytes[12], bytes[13]]),
            BigEndian::read_u16(&[bytes[14], bytes[15]]),
        ])
    }

    /// The lanes, lane 0 first.
    #[inline(always)]
    pub fn to_array(&self) -> [u16; 8] {
        self.lanes.to_array()
    }

    /// The eight lanes, each below 65536.
    #[inline(always)]
    pub fn to_simd(&self) -> u16x8 {
        self.lanes
    }

    /// Lane `i`, from 0 to 7.
    #[inline(always)]
    pub fn lane(&self, i: usize) -> u16 {
        self.lanes[i]
    }

    /// Writes lane `i`, from 0 to 7. The others are kept. The merge stays in vector registers: a
    /// write of one lane in memory would be read back as a vector, and the processor waits for
    /// that.
    #[inline(always)]
    pub fn set_lane(&mut self, i: usize, value: u16) {
        let places = VReg::from_array([0, 1, 2, 3, 4, 5, 6, 7]);
        let old = VReg::from_simd(self.to_simd());
        *self = places
            .is_equal(&VReg::splat(i as u16))
            .merge(&VReg::splat(value), &old);
    }

    /// Byte `i`, from 0 to 15: byte 0 is the high byte of lane 0, byte 15 the low byte of lane 7.
    #[inline(always)]
    pub fn byte(&self, i: usize) -> u8 {
        let mut bytes = [0; 2];
        BigEndian::write_u16(&mut bytes, self.lane(i / 2));
        let [high, low] = bytes;
        if i % 2 == 0 { high } else { low }
    }

    /// Writes byte `i`, from 0 to 15. The others are kept.
    #[inline(always)]
    pub fn set_byte(&mut self, i: usize, value: u8) {
        let mut bytes = [0; 2];
        BigEndian::write_u16(&mut bytes, self.lane(i / 2));
        let [high, low] = bytes;
        let bytes = if i % 2 == 0 {
            [value, low]
        } else {
            [high, value]
        };
        self.set_lane(i / 2, BigEndian::read_u16(&bytes));
    }

    /// The sums of the lanes, modulo 65536.
    #[inline(always)]
    pub fn add(&self, other: &VReg) -> VReg {
        VReg::from_simd(self.lanes + other.lanes)
    }

    /// The differences of the lanes, modulo 65536.
    #[inline(always)]
    pub fn subtract(&self, other: &VReg) -> VReg {
        VReg::from_simd(self.lanes - other.lanes)
    }

    /// Bitwise and.
    #[inline(always)]
    pub fn and(&self, other: &VReg) -> VReg {
        VReg::from_simd(self.lanes & other.lanes)
    }

    /// Bitwise or.
    #[inline(always)]
    pub fn or(&self, other: &VReg) -> VReg {
        VReg::from_simd(self.lanes | other.lanes)
    }

    /// Bitwise exclusive or.
    #[inline(always)]
    pub fn xor(&self, other: &VReg) -> VReg {
        VReg::from_simd(self.lanes ^ other.lanes)
    }

    /// Bitwise not.
    #[inline(always)]
    pub fn not(&self) -> VReg {
        VReg::from_simd(!self.lanes)
    }

    /// The lanes negated, modulo 65536: 8000 hex is its own negative.
    #[inline(always)]
    pub fn negate(&self) -> VReg {
        VReg::new().subtract(self)
    }

    /// The lanes that are 0.
    #[inline(always)]
    pub fn is_zero(&self) -> Mask8 {
        self.is_equal(&VReg::new())
    }

    /// The lanes that are below the other's, as unsigned values.
    #[inline(always)]
    pub fn is_below(&self, other: &VReg) -> Mask8 {
        Mask8::from_simd(self.lanes.simd_lt(other.lanes))
    }

    /// The lanes that are below the other's, as signed values.
    #[inline(always)]
    pub fn is_below_signed(&self, other: &VReg) -> Mask8 {
        let half = VReg::splat(0x8000);
        self.add(&half).is_below(&other.add(&half))
    }

    /// The lanes that are equal to the other's.
    #[inline(always)]
    pub fn is_equal(&self, other: &VReg) -> Mask8 {
        Mask8::from_simd(self.lanes.simd_eq(other.lanes))
    }

    /// The sums of the lanes and a carry, modulo 65536, and the carries out of them.
    #[inline(always)]
    pub fn add_carrying(&self, other: &VReg, carry: Mask8) -> (VReg, Mask8) {
        let plain = self.add(other);
        let sum = plain.add(&carry.merge(&VReg::splat(1), &VReg::new()));
        (sum, plain.is_below(self).or(sum.is_below(&plain)))
    }

    /// The lanes that are negative as signed values: their top bit is set.
    #[inline(always)]
    pub fn is_negative(&self) -> Mask8 {
        VReg::splat(0x7fff).is_below(self)
    }

    /// The high and the low halves of the products of the lanes as unsigned values.
    #[inline(always)]
    pub fn product(&self, other: &VReg) -> (VReg, VReg) {
        let product = self.lanes.cast::<u32>() * other.lanes.cast::<u32>();
        (
            VReg::from_simd((product >> u32x8::splat(16)).cast::<u16>()),
            VReg::from_simd(self.lanes * other.lanes),
        )
    }
}
