use crate::lanes::VReg;
use crate::simd::prelude::*;

/// Sixteen bytes for each element. The table is aligned to 16 bytes, as a `u128` is, so a swizzle
/// reads an entry in place.
struct ByElement {
    _aligned: [u128; 0],
    entries: [[u8; 16]; 16],
}

/// For each element, the bytes of a register that make up the operand: two for each lane. Byte 2 i
/// is the low byte of lane i, byte 2 i + 1 its high byte.
static SOURCES: ByElement = ByElement {
    _aligned: [],
    entries: [
        [0, 1, 2, 3, 4, 5, 6, 7, 8, 9, 10, 11, 12, 13, 14, 15],
        [0, 1, 2, 3, 4, 5, 6, 7, 8, 9, 10, 11, 12, 13, 14, 15],
        [0, 1, 0, 1, 4, 5, 4, 5, 8, 9, 8, 9, 12, 13, 12, 13],
        [2, 3, 2, 3, 6, 7, 6, 7, 10, 11, 10, 11, 14, 15, 14, 15],
        [0, 1, 0, 1, 0, 1, 0, 1, 8, 9, 8, 9, 8, 9, 8, 9],
        [2, 3, 2, 3, 2, 3, 2, 3, 10, 11, 10, 11, 10, 11, 10, 11],
        [4, 5, 4, 5, 4, 5, 4, 5, 12, 13, 12, 13, 12, 13, 12, 13],
        [6, 7, 6, 7, 6, 7, 6, 7, 14, 15, 14, 15, 14, 15, 14, 15],
        [0, 1, 0, 1, 0, 1, 0, 1, 0, 1, 0, 1, 0, 1, 0, 1],
        [2, 3, 2, 3, 2, 3, 2, 3, 2, 3, 2, 3, 2, 3, 2, 3],
        [4, 5, 4, 5, 4, 5, 4, 5, 4, 5, 4, 5, 4, 5, 4, 5],
        [6, 7, 6, 7, 6, 7, 6, 7, 6, 7, 6, 7, 6, 7, 6, 7],
        [8, 9, 8, 9, 8, 9, 8, 9, 8, 9, 8, 9, 8, 9, 8, 9],
        [
            10, 11, 10, 11, 10, 11, 10, 11, 10, 11, 10, 11, 10, 11, 10, 11,
        ],
        [
            12, 13, 12, 13, 12, 13, 12, 13, 12, 13, 12, 13, 12, 13, 12, 13,
        ],
        [
            14, 15, 14, 15, 14, 15, 14, 15, 14, 15, 14, 15, 14, 15, 14, 15,
        ],
    ],
};

/// The table's entry of element `e`, below 16.
#[inline(always)]
fn sources(e: usize) -> u8x16 {
    u8x16::from_array(SOURCES.entries[e])
}

/// The operand that element `e` selects from a register.
///
/// Elements 0 and 1 select the register; 2 and 3 the first and the second lane of each pair, for
/// both; 4 to 7 the first to the fourth lane of each four, for all four; 8 to 15 lane 0 to lane 7,
/// for all eight. Requires `e` below 16.
#[inline(always)]
pub fn select(v: &VReg, e: usize) -> VReg {
    let bytes = v.to_simd().to_le_bytes();
    VReg::from_simd(u16x8::from_le_bytes(bytes.swizzle_dyn(sources(e))))
}

impl VReg {
    /// Lanes 0, 2, 4 and 6, and the same again.
    #[inline(always)]
    pub fn even_lanes(&self) -> VReg {
        VReg::from_simd(self.to_simd().swizzle([0, 2, 4, 6, 0, 2, 4, 6]))
    }
}
