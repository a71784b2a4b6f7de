//! Parts of a machine as plain numbers. `tools/shapes` writes this file.

/// The scalar registers, and the addresses of the next instruction and of the one after it.
#[repr(C)]
#[derive(Clone, Copy, Debug, Default, PartialEq, Eq)]
pub struct Scalars {
    /// The scalar registers; register 0 is 0.
    pub words: [u32; 32],
    /// The address of the next instruction, a multiple of 4 below 4096.
    pub pc: u16,
    /// The address of the one after it.
    pub npc: u16,
}

/// The eight accumulators: bits 47 to 32 of each, 31 to 16, and 15 to 0.
#[repr(C)]
#[derive(Clone, Copy, Debug, Default, PartialEq, Eq)]
pub struct Accumulators {
    /// Bits 47 to 32.
    pub high: [u16; 8],
    /// Bits 31 to 16.
    pub middle: [u16; 8],
    /// Bits 15 to 0.
    pub low: [u16; 8],
}

/// Flags, bit i for lane i.
#[repr(C)]
#[derive(Clone, Copy, Debug, Default, PartialEq, Eq)]
pub struct FlagBits {
    /// Bits 0 to 7 of VCO.
    pub carry: u8,
    /// Bits 8 to 15 of VCO, not-equal.
    pub differ: u8,
    /// Bits 0 to 7 of VCC.
    pub compare: u8,
    /// Bits 8 to 15 of VCC.
    pub clip: u8,
    /// VCE.
    pub extra: u8,
}

/// What divide instructions leave for the next one.
#[repr(C)]
#[derive(Clone, Copy, Debug, Default, PartialEq, Eq)]
pub struct DivideState {
    /// DIV_IN.
    pub input: u16,
    /// DIV_OUT.
    pub output: u16,
    /// 1 if DIV_IN is loaded, otherwise 0.
    pub loaded: u16,
}

/// All registers. The default is the state of a new machine.
#[repr(C)]
#[derive(Clone, Copy, Debug, PartialEq, Eq)]
pub struct State {
    /// The scalar registers; register 0 is 0.
    pub words: [u32; 32],
    /// The vector registers, lane 0 first.
    pub vectors: [[u16; 8]; 32],
    /// The accumulators.
    pub accumulators: Accumulators,
    /// The flags VCO, VCC and VCE.
    pub flags: FlagBits,
    /// 0 in each state of a machine, in the place of padding.
    pub(crate) zero: u8,
    /// What divide instructions leave for the next one.
    pub divider: DivideState,
    /// The address of the next instruction, a multiple of 4 below 4096.
    pub pc: u16,
    /// The address of the one after it.
    pub npc: u16,
    /// The SP registers 0 to 7 and the DPC's, as `peek` gives them.
    pub sp: [u32; 16],
    /// 1 if the interrupt flag is set, otherwise 0.
    pub interrupt: u32,
}

/// The SP registers. The default is those of a new machine.
#[repr(C)]
#[derive(Clone, Copy, Debug, PartialEq, Eq)]
pub struct SpWords {
    /// Registers 0 to 7 and the DPC's, as `peek` gives them.
    pub words: [u32; 16],
    /// 1 if the interrupt flag is set, otherwise 0.
    pub interrupt: u32,
}

/// An entry of a trace: what a step did. Its bytes have no gaps.
#[repr(C)]
#[derive(Clone, Copy, Debug, Default, PartialEq, Eq)]
pub struct Traced {
    /// The word that was executed.
    pub word: u32,
    /// What the scalar register `scalar` holds after the step; 0 if none.
    pub value: u32,
    /// The address of the word.
    pub pc: u16,
    /// The address of a store in DMEM, below 4096; otherwise 0.
    pub address: u16,
    /// VCO after the step.
    pub vco: u16,
    /// VCC after the step.
    pub vcc: u16,
    /// VCE after the step.
    pub vce: u8,
    /// The number of the scalar register that the step wrote, 1 to 31; 0 if none.
    pub scalar: u8,
    /// The number of the vector register that the step wrote, for LTV the first of the group; 32 if none.
    pub vector: u8,
    /// 1 for a store, otherwise 0.
    pub stored: u8,
    /// What the vector register `vector` holds after the step; 0 if none.
    pub lanes: [u16; 8],
}

/// What a step changed; its bytes have no gaps. Some changes aren't here: the other seven registers of the group that an LTV writes; SP
/// registers that MFC0, MTC0, BREAK and single step change; and memories that a DMA changes.
#[repr(C)]
#[derive(Clone, Copy, Debug, Default, PartialEq, Eq)]
pub struct Changes {
    /// Its entry in a trace.
    pub traced: Traced,
    /// The address of the next instruction.
    pub pc: u16,
    /// The address of the one after it.
    pub npc: u16,
    /// What divide instructions leave for the next one, after the step.
    pub divider: DivideState,
    /// The address of the quadword that contains a store's address; otherwise 0.
    pub quadword: u16,
    /// The accumulators after the step.
    pub accumulators: Accumulators,
    /// For a store that quadword and the next one, modulo 4096, after the step; otherwise 0.
    pub bytes: [[u8; 16]; 2],
}

/// A DMA: rows of bytes. In the bank they follow one another; in RDRAM there are `skip` bytes between two rows.
#[repr(C)]
#[derive(Clone, Copy, Debug, Default, PartialEq, Eq)]
pub struct Dma {
    /// The bank: 0 for DMEM, 1 for IMEM.
    pub bank: u32,
    /// The first address in the bank, a multiple of 8 below 4096. Addresses wrap there.
    pub address: u32,
    /// The first address in RDRAM, a multiple of 8 below 2^24. Addresses wrap there.
    pub rdram: u32,
    /// The bytes of a row, a multiple of 8 from 8 to 4096.
    pub length: u32,
    /// The number of rows, 1 to 256.
    pub rows: u32,
    /// The bytes of RDRAM between two rows, a multiple of 8 below 4096.
    pub skip: u32,
    /// 1 if the bytes go to RDRAM, 0 if they come from there.
    pub to_rdram: u32,
}
