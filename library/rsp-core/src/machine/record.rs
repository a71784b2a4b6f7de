// What a step saves of the values that it overwrites.
//
// A record says which register or address its instruction changes, so a step back neither decodes a
// word nor reads IMEM. Of the accumulators it saves what the instruction writes: all three planes
// for a multiply or a rounding, else the low one. What earlier steps left in the other two is never
// read.

use crate::acc::{Acc, Addends, Part};
use crate::divide::Divider;
use crate::lanes::{Flags, VReg};
use crate::loadstore::VFile;
use crate::machine::footprint::Footprint;
use crate::machine::machine::Machine;
use crate::machine::program_counters::{InstructionAddress, ProgramCounters};
use crate::machine::recorder::Recorder;
use crate::regs::SpRegs;

/// What a step saved: the values that its instruction overwrites. [`Machine::undo`] writes them
/// back.
pub struct Record {
    pub(crate) pc: InstructionAddress,
    pub(crate) footprint: Footprint,
    pub(crate) word: u32,
    pub(crate) bytes: [u8; 16],
    pub(crate) vector: VReg,
    pub(crate) accumulators: Addends,
    pub(crate) flags: Flags,
    pub(crate) divider: Divider,
    pub(crate) vectors: [VReg; 8],
    pub(crate) sp: SpRegs,
}

impl Record {
    /// The record of no step: [`Machine::undo`] of it changes nothing.
    pub fn new() -> Record {
        let zeros = VReg::new();
        Record {
            pc: InstructionAddress::new(0),
            footprint: Footprint::Dma,
            word: 0,
            bytes: [0; 16],
            vector: zeros,
            accumulators: Addends::zero(),
            flags: Flags::new(),
            divider: Divider::new(),
            vectors: [zeros; 8],
            sp: SpRegs::new(),
        }
    }

    /// Whether [`Machine::undo`] undoes the step. It doesn't if the step started a DMA.
    #[inline(always)]
    pub fn can_undo(&self) -> bool {
        self.footprint.makes_no_dma()
    }

    /// Saves vector register `n` and the accumulators.
    #[inline]
    fn save_product<A: Acc>(&mut self, machine: &Machine<A>, n: u32) {
        self.vector = machine.vregs.reg(n as u8);
        self.accumulators = Addends::of(&machine.acc);
    }

    /// Saves vector register `n` and the low accumulators.
    #[inline]
    fn save_low<A: Acc>(&mut self, machine: &Machine<A>, n: u32) {
        self.vector = machine.vregs.reg(n as u8);
        self.accumulators.set_low(&machine.acc.part(Part::Low));
    }

    /// Saves the eight vector registers from `n` on.
    #[cold]
    fn save_group(&mut self, file: &VFile, n: u32) {
        let n = n as u8;
        let vectors = [
            file.reg(n),
            file.reg(n + 1),
            file.reg(n + 2),
            file.reg(n + 3),
            file.reg(n + 4),
            file.reg(n + 5),
            file.reg(n + 6),
            file.reg(n + 7),
        ];
        self.vectors = vectors;
    }
}

impl Recorder for Record {
    #[inline(always)]
    fn slot(n: u64) -> usize {
        n as usize
    }

    #[inline(always)]
    fn ends_at_dma() -> bool {
        true
    }

    #[inline(always)]
    fn save<A: Acc>(
        &mut self,
        machine: &Machine<A>,
        before: ProgramCounters,
        footprint: Footprint,
    ) {
        self.pc = before.pc;
        self.footprint = footprint;
        match footprint {
            Footprint::ProgramCounters | Footprint::Dma => (),
            Footprint::Register(n) => self.word = machine.regs.get(n as u8),
            Footprint::Bytes(a) => match machine.dmem.whole_window(a) {
                Some(bytes) => self.bytes = *bytes,
                None => self.bytes = machine.dmem.window(a),
            },
            Footprint::Vector(n) => self.vector = machine.vregs.reg(n as u8),
            Footprint::Group(n) => self.save_group(&machine.vregs, n),
            Footprint::Product(n) => self.save_product(machine, n),
            Footprint::Low(n) => self.save_low(machine, n),
            Footprint::Sum(n) => {
                self.save_low(machine, n);
                self.flags.copy_vco(&machine.flags);
            }
            Footprint::Choice(n) => {
                self.save_low(machine, n);
                self.flags.copy_vco(&machine.flags);
                self.flags.copy_vcc(&machine.flags);
            }
            Footprint::Clip(n) => {
                self.save_low(machine, n);
                self.flags.copy_from(&machine.flags);
            }
            Footprint::Divide(n) => {
                self.save_low(machine, n);
                self.divider = machine.divider;
            }
            Footprint::Flags => self.flags = machine.flags,
            Footprint::Sp(n) => {
                self.word = machine.regs.get(n as u8);
                self.sp = machine.sp;
            }
        }
    }
}
