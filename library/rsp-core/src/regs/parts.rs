/// All SP registers as plain data, for a program that saves or sets them.
#[derive(Clone, Copy, Debug, PartialEq, Eq)]
pub struct SpParts {
    /// SP_MEM_ADDR: a multiple of 8 below 8192. Bit 12 is set if the bank is IMEM.
    pub memory: u32,
    /// SP_DRAM_ADDR: a multiple of 8 below 2^24.
    pub dram: u32,
    /// The skip of the last DMA, a multiple of 8 below 4096. Both length registers return it.
    pub skip: u32,
    /// Whether the RSP is halted: bit 0 of SP_STATUS.
    pub halted: bool,
    /// Whether a BREAK was executed: bit 1 of SP_STATUS.
    pub broke: bool,
    /// Whether the RSP halts after each instruction: bit 5 of SP_STATUS.
    pub single_step: bool,
    /// Whether a BREAK sets the interrupt flag: bit 6 of SP_STATUS.
    pub intbreak: bool,
    /// The signals 0 to 7: bits 7 to 14 of SP_STATUS.
    pub signals: [bool; 8],
    /// The interrupt flag, which is in none of the registers.
    pub interrupt: bool,
    /// SP_SEMAPHORE: whether it is taken.
    pub semaphore: bool,
    /// The eight DPC registers: words that are stored and have no effect.
    pub dpc: [u32; 8],
}
