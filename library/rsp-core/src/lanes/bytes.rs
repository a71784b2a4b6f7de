//! A register as sixteen bytes: what vector loads and stores select, rotate and merge. Byte 0 is
//! the high byte of lane 0, but a vector of the host has the low byte of each lane first.

use crate::lanes::{Bytes16, VReg};
use crate::simd::prelude::*;

/// The register's byte at each position of a vector of lanes.
const ORDER: [u8; 16] = [1, 0, 3, 2, 5, 4, 7, 6, 9, 8, 11, 10, 13, 12, 15, 14];

/// The numbers 0 to 15, and 0 to 14 again: the sixteen from index `i` on are the numbers rotated by
/// `i`.
static PLACES: [u8; 31] = [
    0, 1, 2, 3, 4, 5, 6, 7, 8, 9, 10, 11, 12, 13, 14, 15, 0, 1, 2, 3, 4, 5, 6, 7, 8, 9, 10, 11, 12,
    13, 14,
];

/// What `ORDER` has at each of `PLACES`.
static ORDERED_PLACES: [u8; 31] = [
    1, 0, 3, 2, 5, 4, 7, 6, 9, 8, 11, 10, 13, 12, 15, 14, 1, 0, 3, 2, 5, 4, 7, 6, 9, 8, 11, 10, 13,
    12, 15,
];

/// The numbers from 15 down, modulo 256. The sixteen from index `i` on are the distances from byte
/// `i` of a register to its bytes 15 down to 0.
static DISTANCES: [u8; 47] = [
    15, 14, 13, 12, 11, 10, 9, 8, 7, 6, 5, 4, 3, 2, 1, 0, 255, 254, 253, 252, 251, 250, 249, 248,
    247, 246, 245, 244, 243, 242, 241, 240, 239, 238, 237, 236, 235, 234, 233, 232, 231, 230, 229,
    228, 227, 226, 225,
];

/// The same as `ORDER`, but bytes are counted from the last one.
const FROM_LAST: [u8; 16] = [14, 15, 12, 13, 10, 11, 8, 9, 6, 7, 4, 5, 2, 3, 0, 1];

/// For each position of a vector of lanes: how far its byte is after byte `i` of the register,
/// modulo 256.
#[inline(always)]
fn distances(i: u8) -> u8x16 {
    let first = usize::from(i);
    u8x16::from_slice(&DISTANCES[first..first + 16]).swizzle_dyn(u8x16::from_array(FROM_LAST))
}

/// Sixteen consecutive members of a table, from `start` modulo 16 on.
#[inline(always)]
fn sixteen(places: &[u8; 31], start: u8) -> u8x16 {
    let first = usize::from(start % 16);
    u8x16::from_slice(&places[first..first + 16])
}

/// The bytes rotated: byte k is byte `start + k` modulo 16.
#[inline(always)]
fn rotated(bytes: u8x16, start: u8) -> u8x16 {
    bytes.swizzle_dyn(sixteen(&PLACES, start))
}

impl VReg {
    /// The register with the first `n` bytes of `source` written over its bytes from byte `i` on.
    /// What would be byte 16 or above is dropped.
    /// Requires `i` below 32 and `n` at most 16.
    #[inline(always)]
    pub fn with_bytes(&self, source: Bytes16, i: u8, n: u8) -> VReg {
        let behind = distances(i);
        let moved = source.to_simd().swizzle_dyn(behind);
        let chosen = behind.simd_lt(u8x16::splat(n));
        VReg::from_simd(u16x8::from_le_bytes(
            chosen.select(moved, self.to_simd().to_le_bytes()),
        ))
    }

    /// The register's bytes, from byte `i` modulo 16 on, and after byte 15 from byte 0 on.
    #[inline(always)]
    pub fn bytes_from(&self, i: u8) -> [u8; 16] {
        let bytes = self.to_simd().to_le_bytes();
        bytes.swizzle_dyn(sixteen(&ORDERED_PLACES, i)).to_array()
    }

    /// The high bytes of lanes 0 to 7, and then bits 14 to 7 of lanes 0 to 7: these sixteen from
    /// number `i` modulo 16 on, and after the last from the first on.
    #[inline(always)]
    pub fn packed_bytes_from(&self, i: u8) -> [u8; 16] {
        let lanes = self.to_simd();
        let doubled = lanes + lanes;
        let (_, high) = lanes.to_le_bytes().deinterleave(doubled.to_le_bytes());
        rotated(high, i).to_array()
    }

    /// The register whose lane k is byte `start + k` modulo 16 of `source`, times `factor`.
    /// Requires a factor of at most 256.
    #[inline(always)]
    pub fn unpacked_from(source: Bytes16, start: u8, factor: u16) -> VReg {
        let bytes = rotated(source.to_simd(), start);
        VReg::from_simd(bytes.extract::<0, 8>().cast::<u16>() * u16x8::splat(factor))
    }

    /// The register whose lane k is byte `start + 2 k` modulo 16 of `source`, times 128.
    #[inline(always)]
    pub fn from_halves(source: Bytes16, start: u8) -> VReg {
        let pairs = u16x8::from_le_bytes(rotated(source.to_simd(), start));
        VReg::from_simd(pairs << u16x8::splat(8) >> u16x8::splat(1))
    }

    /// The register whose byte k is byte `start + k` modulo 16 of `source`.
    #[inline(always)]
    pub fn from_rotated(source: Bytes16, start: u8) -> VReg {
        let bytes = rotated(source.to_simd(), start);
        VReg::from_simd(u16x8::from_le_bytes(
            bytes.swizzle_dyn(u8x16::from_array(ORDER)),
        ))
    }
}
