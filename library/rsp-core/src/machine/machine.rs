use crate::acc::{Acc, Part};
use crate::divide::Divider;
use crate::lanes::{Flags, VReg};
use crate::loadstore::VFile;
use crate::machine::program_counters::{InstructionAddress, ProgramCounters};
use crate::memory::{Rdram, SpMem};
use crate::regs::SpRegs;
use crate::scalar::Regs;

/// The signal processor, over accumulators of the kind `A`: pc and npc, 32 scalar registers, 32
/// vector registers of eight lanes, eight accumulators, the flags, the divider, DMEM, IMEM, the
/// image of the RDRAM and the SP registers.
pub struct Machine<A: Acc> {
    pub(crate) pc: InstructionAddress,
    pub(crate) npc: InstructionAddress,
    pub(crate) regs: Regs,
    pub(crate) vregs: VFile,
    pub(crate) acc: A,
    pub(crate) flags: Flags,
    pub(crate) divider: Divider,
    pub(crate) dmem: SpMem,
    pub(crate) imem: SpMem,
    pub(crate) rdram: Rdram,
    pub(crate) sp: SpRegs,
}

impl<A: Acc> Machine<A> {
    /// A machine with this image of the RDRAM, and all else 0 but npc, which is 4. It isn't halted.
    pub fn new(rdram: Rdram) -> Machine<A> {
        Machine {
            pc: InstructionAddress::new(0),
            npc: InstructionAddress::new(4),
            regs: Regs::new(),
            vregs: VFile::new(),
            acc: A::zero(),
            flags: Flags::new(),
            divider: Divider::new(),
            dmem: SpMem::new(),
            imem: SpMem::new(),
            rdram,
            sp: SpRegs::new(),
        }
    }

    /// The address in IMEM of the next instruction, a multiple of 4 below 4096.
    #[inline]
    pub fn pc(&self) -> u16 {
        self.pc.get()
    }

    /// The address in IMEM of the instruction after the next, a multiple of 4 below 4096.
    #[inline]
    pub fn npc(&self) -> u16 {
        self.npc.get()
    }

    /// Scalar register `n`, below 32. Register 0 is 0.
    #[inline]
    pub fn reg(&self, n: u8) -> u32 {
        self.regs.get(n)
    }

    /// Vector register `n`, below 32.
    #[inline]
    pub fn vreg(&self, n: u8) -> VReg {
        self.vregs.reg(n)
    }

    /// The flags of the eight lanes: carry, not-equal, compare, clip and extra.
    #[inline]
    pub fn flags(&self) -> &Flags {
        &self.flags
    }

    /// What the divide instructions keep from one to the next.
    #[inline]
    pub fn divider(&self) -> &Divider {
        &self.divider
    }

    /// The SP registers, with the interrupt flag. Their `peek` doesn't set the semaphore.
    #[inline]
    pub fn sp_regs(&self) -> &SpRegs {
        &self.sp
    }

    /// The data memory, DMEM.
    #[inline]
    pub fn dmem(&self) -> &SpMem {
        &self.dmem
    }

    /// The instruction memory, IMEM.
    #[inline]
    pub fn imem(&self) -> &SpMem {
        &self.imem
    }

    /// The image of the RDRAM.
    #[inline]
    pub fn rdram(&self) -> &Rdram {
        &self.rdram
    }

    /// The eight accumulators.
    #[inline]
    pub fn acc(&self) -> &A {
        &self.acc
    }

    /// The image of the RDRAM; the rest of the machine is dropped.
    pub fn into_rdram(self) -> Rdram {
        self.rdram
    }

    /// pc and npc, which the loop of steps keeps apart.
    #[inline(always)]
    pub(crate) fn counters(&self) -> ProgramCounters {
        ProgramCounters {
            pc: self.pc,
            npc: self.npc,
        }
    }

    /// Sets pc and npc, which the loop of steps has kept apart.
    #[inline(always)]
    pub(crate) fn set_counters(&mut self, counters: ProgramCounters) {
        self.pc = counters.pc;
        self.npc = counters.npc;
    }

    /// The word of IMEM that a machine with this pc executes next.
    #[inline(always)]
    pub(crate) fn word_at(&self, counters: ProgramCounters) -> u32 {
        self.imem.aligned_word(counters.pc.index())
    }

    /// Only the proof of the sources needs this.
    #[inline(always)]
    pub(crate) fn in_range(&self) {
        let _pc = self.pc.get();
        let _npc = self.npc.get();
        let _registers = self.regs.words();
        self.vector_ranges();
        let _input = self.divider.input;
        let _output = self.divider.output;
        let _dmem = self.dmem.bytes()[0];
        let _imem = self.imem.bytes()[0];
        let _rdram = self.rdram.bytes();
        let _sp = self.sp.parts();
    }

    /// Only the proof of the sources needs this.
    #[inline(always)]
    pub(crate) fn vector_ranges(&self) {
        let _vector = self.vregs.reg(0);
        let _low = self.acc.part(Part::Low);
        let _vco = self.flags.vco();
    }
}
