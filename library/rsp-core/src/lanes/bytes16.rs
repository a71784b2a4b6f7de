use crate::simd::prelude::*;

/// Sixteen bytes in one vector.
#[derive(Clone, Copy)]
pub struct Bytes16 {
    bytes: u8x16,
}

impl Bytes16 {
    /// The vector of these bytes.
    #[inline(always)]
    pub fn from_array(bytes: [u8; 16]) -> Self {
        Bytes16 {
            bytes: u8x16::from_array(bytes),
        }
    }

    /// The sixteen bytes, each below 256.
    #[inline(always)]
    pub(crate) fn to_simd(self) -> u8x16 {
        self.bytes
    }
}
