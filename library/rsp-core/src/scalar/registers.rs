/// The 32 scalar registers of 32 bits. Register 0 is always 0.
#[derive(Clone, Copy, PartialEq, Eq, Debug)]
pub struct Regs {
    words: [u32; 32],
}

impl Regs {
    /// Registers of zeros, as at the start.
    pub fn new() -> Self {
        Regs { words: [0; 32] }
    }

    /// The registers with these words. Requires that register 0 is 0.
    pub fn from_words(words: [u32; 32]) -> Self {
        Regs { words }
    }

    /// All 32 registers.
    pub fn words(&self) -> [u32; 32] {
        self.words
    }

    /// Register `n`, below 32.
    #[inline(always)]
    pub fn get(&self, n: u8) -> u32 {
        self.words[n as usize]
    }

    /// Writes register `n`, below 32. A write of register 0 is dropped.
    #[inline(always)]
    pub fn set(&mut self, n: u8, value: u32) {
        self.words[n as usize] = value;
        // Without a test of `n`: one more store is faster.
        self.words[0] = 0;
    }
}
