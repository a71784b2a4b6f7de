// What an instruction touches of a machine.

use crate::acc::Acc;
use crate::decode::{BranchSignOp, Inst, JumpOp, MoveOp, VectorLoadOp, VectorStoreOp};
use crate::machine::machine::Machine;
use crate::regs::is_length_register;

/// What an instruction touches of a machine besides pc and npc, with the register or the address. A
/// register number is a word here, because a step stores a word at once.
#[derive(Clone, Copy)]
pub(crate) enum Footprint {
    /// Nothing else.
    ProgramCounters,
    /// A scalar register.
    Register(u32),
    /// Sixteen bytes of DMEM, from an address on.
    Bytes(u32),
    /// A vector register.
    Vector(u32),
    /// Eight vector registers, from one on.
    Group(u32),
    /// A vector register and the accumulators.
    Product(u32),
    /// A vector register and the low accumulators.
    Low(u32),
    /// A vector register, the low accumulators, and the flags of VCO.
    Sum(u32),
    /// A vector register, the low accumulators, and the flags of VCO and VCC.
    Choice(u32),
    /// A vector register, the low accumulators and all flags.
    Clip(u32),
    /// A vector register, the low accumulators and the divider.
    Divide(u32),
    /// The flags.
    Flags,
    /// The SP registers, and a scalar register.
    Sp(u32),
    /// A DMA. Its effect isn't saved, so the step can't be undone.
    Dma,
}

/// What the loop of steps tests after an instruction. Each arm of the decoder sets these to
/// constants, so LLVM removes the tests.
#[derive(Clone, Copy)]
pub(crate) struct StepTests {
    /// Whether the instruction may have read or written the SP registers.
    pub(crate) sp: bool,
    /// Whether it may have written DMEM.
    pub(crate) changes_memory: bool,
    /// Whether it started a DMA.
    pub(crate) dma: bool,
}

impl Footprint {
    /// What the loop of steps tests after an instruction with this footprint.
    #[inline(always)]
    pub(crate) fn tests(self) -> StepTests {
        StepTests {
            sp: matches!(self, Footprint::Sp(_) | Footprint::Dma),
            changes_memory: self.is_store() || !self.makes_no_dma(),
            dma: !self.makes_no_dma(),
        }
    }

    /// Whether the instruction is a store.
    #[inline(always)]
    pub(crate) fn is_store(self) -> bool {
        matches!(self, Footprint::Bytes(_))
    }

    /// Whether the instruction starts no DMA, so that its record undoes it.
    #[inline(always)]
    pub(crate) fn makes_no_dma(self) -> bool {
        !matches!(self, Footprint::Dma)
    }
}

/// What an instruction touches of a machine.
#[inline(always)]
pub(crate) fn footprint_of<A: Acc>(inst: &Inst, machine: &Machine<A>) -> Footprint {
    match *inst {
        Inst::Shift { rd, .. } | Inst::JumpLinkRegister { rd, .. } => {
            Footprint::Register(u32::from(rd))
        }
        Inst::ShiftBy { fields, .. } | Inst::Register { fields, .. } => {
            Footprint::Register(u32::from(fields.rd))
        }
        Inst::Immediate { rt, .. } | Inst::LoadUpper { rt, .. } => {
            Footprint::Register(u32::from(rt))
        }
        Inst::Load { fields, .. } => Footprint::Register(u32::from(fields.rt)),
        Inst::Store { fields, .. } => Footprint::Bytes(crate::scalar::address(
            &machine.regs,
            fields.base,
            fields.offset,
        )),
        Inst::JumpRegister { .. } | Inst::BranchEqual { .. } | Inst::Idle { .. } => {
            Footprint::ProgramCounters
        }
        Inst::BranchSign { op, .. } => match op {
            BranchSignOp::Bltzal | BranchSignOp::Bgezal => Footprint::Register(31),
            BranchSignOp::Bltz | BranchSignOp::Bgez | BranchSignOp::Blez | BranchSignOp::Bgtz => {
                Footprint::ProgramCounters
            }
        },
        Inst::Jump { op, .. } => match op {
            JumpOp::Jal => Footprint::Register(31),
            JumpOp::J => Footprint::ProgramCounters,
        },
        Inst::Break => Footprint::Sp(0),
        Inst::MoveSp { op, rt, register } => match op {
            MoveOp::From => Footprint::Sp(u32::from(rt)),
            MoveOp::To => {
                if is_length_register(u32::from(register)) {
                    Footprint::Dma
                } else {
                    Footprint::Sp(0)
                }
            }
        },
        Inst::MoveVector { op, rt, vector, .. } => match op {
            MoveOp::From => Footprint::Register(u32::from(rt)),
            MoveOp::To => Footprint::Vector(u32::from(vector)),
        },
        Inst::MoveControl { op, rt, .. } => match op {
            MoveOp::From => Footprint::Register(u32::from(rt)),
            MoveOp::To => Footprint::Flags,
        },
        Inst::Multiply { fields, .. }
        | Inst::Round { fields, .. }
        | Inst::MpegMultiply { fields, .. } => Footprint::Product(u32::from(fields.vd)),
        Inst::ReadAccumulator { fields } => Footprint::Vector(u32::from(fields.vd)),
        Inst::VectorAdd { fields, .. } | Inst::VectorMerge { fields } => {
            Footprint::Sum(u32::from(fields.vd))
        }
        Inst::VectorSelect { fields, .. } => Footprint::Choice(u32::from(fields.vd)),
        Inst::VectorClip { fields, .. } => Footprint::Clip(u32::from(fields.vd)),
        Inst::VectorLogic { fields, .. } => Footprint::Low(u32::from(fields.vd)),
        Inst::Divide { vd, .. } => Footprint::Divide(u32::from(vd)),
        Inst::VectorLoad { op, fields } => match op {
            VectorLoadOp::Ltv => Footprint::Group(u32::from(fields.vt - fields.vt % 8)),
            _ => Footprint::Vector(u32::from(fields.vt)),
        },
        Inst::VectorStore { op, fields } => {
            let a = crate::loadstore::address(inst, machine.regs.get(fields.base));
            Footprint::Bytes(match op {
                VectorStoreOp::Srv => a - a % 16,
                _ => a - a % 8,
            })
        }
    }
}
