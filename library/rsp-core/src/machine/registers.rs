// All registers at once: all of a machine but its memories.

use crate::divide::Divider;
use crate::lanes::Flags;
use crate::regs::SpParts;

/// All of a machine but its three memories, for a program that saves or sets a whole state.
#[derive(Clone, Copy, PartialEq)]
pub struct AllRegisters {
    /// The address of the next instruction, a multiple of 4 below 4096.
    pub pc: u16,
    /// The address of the one after it, a multiple of 4 below 4096.
    pub npc: u16,
    /// The 32 scalar registers. Number 0 is 0.
    pub registers: [u32; 32],
    /// The 32 vector registers, lane 0 of each first.
    pub vectors: [[u16; 8]; 32],
    /// Bits 47 to 32 of the eight accumulators.
    pub accumulators_high: [u16; 8],
    /// Bits 31 to 16 of the eight accumulators.
    pub accumulators_middle: [u16; 8],
    /// Bits 15 to 0 of the eight accumulators.
    pub accumulators_low: [u16; 8],
    /// The flags of the eight lanes: carry, not-equal, compare, clip and extra.
    pub flags: Flags,
    /// What the divide instructions keep from one to the next.
    pub divider: Divider,
    /// The SP registers, with the interrupt flag.
    pub sp: SpParts,
}

/// Why registers can't be those of a machine. If several hold, the first in this order is reported.
#[derive(Clone, Copy, Debug, PartialEq, Eq)]
pub enum RegistersFault {
    /// `pc` or `npc` isn't a multiple of 4 below 4096.
    Place,
    /// Scalar register 0 isn't 0.
    RegisterZero,
    /// SP_MEM_ADDR has more than bits 12 to 3.
    MemoryAddress,
    /// SP_DRAM_ADDR has more than bits 23 to 3.
    DramAddress,
    /// The skip has more than bits 11 to 3.
    Skip,
}

/// Why registers can't be those of a machine.
pub(crate) fn fault_of(given: &AllRegisters) -> Option<RegistersFault> {
    if given.pc >= 4096 || given.pc % 4 != 0 || given.npc >= 4096 || given.npc % 4 != 0 {
        return Some(RegistersFault::Place);
    }
    if given.registers[0] != 0 {
        return Some(RegistersFault::RegisterZero);
    }
    sp_fault(&given.sp)
}

/// Why SP registers can't be those of a machine.
pub(crate) fn sp_fault(given: &SpParts) -> Option<RegistersFault> {
    if given.memory >= 0x2000 || given.memory % 8 != 0 {
        return Some(RegistersFault::MemoryAddress);
    }
    if given.dram >= 0x100_0000 || given.dram % 8 != 0 {
        return Some(RegistersFault::DramAddress);
    }
    if given.skip >= 0x1000 || given.skip % 8 != 0 {
        return Some(RegistersFault::Skip);
    }
    None
}
impl core::fmt::Display for RegistersFault {
    fn fmt(&self, f: &mut core::fmt::Formatter<'_>) -> core::fmt::Result {
        f.write_str(match self {
            RegistersFault::Place => "Place",
            RegistersFault::RegisterZero => "RegisterZero",
            RegistersFault::MemoryAddress => "MemoryAddress",
            RegistersFault::DramAddress => "DramAddress",
            RegistersFault::Skip => "Skip",
        })
    }
}
impl core::error::Error for RegistersFault {}
