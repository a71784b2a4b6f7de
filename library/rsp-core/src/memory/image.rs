use alloc::vec::Vec;

use crate::memory::splice::{splice, splice_words};

/// The RDRAM image: the console's main memory, which the RSP reaches by DMA alone.
///
/// An address is taken modulo 2^24. A byte after the image's end reads 0, and a write there is
/// dropped.
pub struct Rdram {
    bytes: Vec<u8>,
}

/// Fault 7, SizeFault: no image has this length. It returns the bytes to the caller.
#[derive(Debug)]
pub struct SizeFault {
    /// The bytes, unchanged.
    pub bytes: Vec<u8>,
}

impl Rdram {
    /// The image of these bytes, without a copy.
    /// SizeFault, unless their number is a multiple of 8 from 64 to 8,388,608.
    pub fn from_bytes(bytes: Vec<u8>) -> Result<Rdram, SizeFault> {
        let n = bytes.len();
        if n >= 64 && n <= 8_388_608 && n % 8 == 0 {
            Ok(Rdram { bytes })
        } else {
            Err(SizeFault { bytes })
        }
    }

    /// All the bytes, in place.
    #[inline(always)]
    pub fn bytes(&self) -> &[u8] {
        &self.bytes
    }

    /// The byte at address `a` modulo 2^24; 0 after the image's end.
    #[inline]
    pub fn byte(&self, a: u32) -> u8 {
        self.bytes
            .get((a % 16_777_216) as usize)
            .copied()
            .unwrap_or(0)
    }

    /// Writes one byte at address `a` modulo 2^24. After the image's end it writes nothing.
    #[inline]
    pub fn set_byte(&mut self, a: u32, b: u8) {
        let at = (a % 16_777_216) as usize;
        if at < self.len() {
            self.bytes[at] = b;
        }
    }

    /// At most `n` bytes, from address `a` modulo 2^24 to the image's end; none if `a` is after it.
    pub fn run(&self, a: u32, n: usize) -> &[u8] {
        let at = self.len().min((a % 16_777_216) as usize);
        &self.bytes[at..at + n.min(self.len() - at)]
    }

    /// Writes consecutive bytes from address `a` modulo 2^24 on, and drops those after the image's
    /// end.
    /// Requires that no byte passes 2^24.
    pub fn set_bytes(&mut self, a: u32, bytes: &[u8]) {
        let len = self.len();
        let at = len.min((a % 16_777_216) as usize);
        let n = bytes.len().min(len - at);
        splice(&mut self.bytes, at, &bytes[..n]);
    }

    /// Writes consecutive words from address `a` on, the highest byte of each first. All must be
    /// inside the image.
    #[inline(always)]
    pub fn set_words(&mut self, a: u32, words: &[u32]) {
        splice_words(&mut self.bytes, a as usize, words);
    }

    /// The number of bytes.
    #[inline]
    pub fn len(&self) -> usize {
        self.bytes.len()
    }

    /// Returns the bytes.
    pub fn into_bytes(self) -> Vec<u8> {
        let Rdram { bytes } = self;
        bytes
    }
}
