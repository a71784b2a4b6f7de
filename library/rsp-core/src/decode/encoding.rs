// Instructions to words.

use crate::decode::fields::VectorFields;
use crate::decode::inst::Inst;
use crate::decode::rows::{COMPUTING, COP0, COP2, LWC2, REGIMM, SWC2};
use crate::decode::scalar::BranchSignOp;
use crate::decode::vector::{Control, VectorLoadOp, VectorStoreOp};

/// The canonical word of an instruction: the bits that select its row of the table, its fields in
/// their bit fields, and 0 in every other bit. It decodes to the instruction again.
///
/// Requires fields in the ranges of [`Inst`], as in each instruction from
/// [`decode`](crate::decode::decode).
#[inline]
pub fn encode(inst: &Inst) -> u32 {
    canonical_word(inst)
}

/// The canonical word of an instruction, by a match with an arm for each variant: its selecting
/// bits, and its fields.
fn canonical_word(inst: &Inst) -> u32 {
    match *inst {
        Inst::Shift { op, rd, rt, amount } => op as u32 | at(rd, 11) | at(rt, 16) | at(amount, 6),
        Inst::ShiftBy { op, fields } => {
            op as u32 | at(fields.rd, 11) | at(fields.rt, 16) | at(fields.rs, 21)
        }
        Inst::JumpRegister { rs } => 8 | at(rs, 21),
        Inst::JumpLinkRegister { rd, rs } => 9 | at(rd, 11) | at(rs, 21),
        Inst::Break => 13,
        Inst::Register { op, fields } => {
            op as u32 | at(fields.rd, 11) | at(fields.rs, 21) | at(fields.rt, 16)
        }
        Inst::BranchSign { op, rs, offset } => branch_sign(op) | at(rs, 21) | u32::from(offset),
        Inst::Jump { op, target } => (op as u32) << 26 | u32::from(target),
        Inst::BranchEqual { op, rs, rt, offset } => {
            (op as u32) << 26 | at(rs, 21) | at(rt, 16) | u32::from(offset)
        }
        Inst::Immediate { op, rt, rs, imm } => {
            (op as u32) << 26 | at(rt, 16) | at(rs, 21) | u32::from(imm)
        }
        Inst::LoadUpper { rt, imm } => 15 << 26 | at(rt, 16) | u32::from(imm),
        Inst::Load { op, fields } => {
            (op as u32) << 26 | at(fields.rt, 16) | u32::from(fields.offset) | at(fields.base, 21)
        }
        Inst::Store { op, fields } => {
            (op as u32) << 26 | at(fields.rt, 16) | u32::from(fields.offset) | at(fields.base, 21)
        }
        Inst::MoveSp { op, rt, register } => {
            COP0 | (op as u32) << 21 | at(rt, 16) | at(register, 11)
        }
        Inst::MoveVector {
            op,
            rt,
            vector,
            element,
        } => COP2 | (op as u32) << 21 | at(rt, 16) | at(vector, 11) | at(element, 7),
        // `cfc2` and `ctc2` are 2 above `mfc2` and `mtc2`.
        Inst::MoveControl { op, rt, control } => {
            COP2 | (op as u32 + 2) << 21 | at(rt, 16) | at(control_bits(control), 11)
        }
        Inst::Multiply { op, fields } => with_vectors(COMPUTING | op as u32, fields),
        Inst::Round { op, fields } => with_vectors(COMPUTING | op as u32, fields),
        Inst::MpegMultiply { op, fields } => with_vectors(COMPUTING | op as u32, fields),
        Inst::ReadAccumulator { fields } => with_vectors(COMPUTING | 0x1d, fields),
        Inst::VectorAdd { op, fields } => with_vectors(COMPUTING | op as u32, fields),
        Inst::VectorSelect { op, fields } => with_vectors(COMPUTING | op as u32, fields),
        Inst::VectorClip { op, fields } => with_vectors(COMPUTING | op as u32, fields),
        Inst::VectorMerge { fields } => with_vectors(COMPUTING | 0x27, fields),
        Inst::VectorLogic { op, fields } => with_vectors(COMPUTING | op as u32, fields),
        Inst::Divide {
            op,
            vd,
            lane,
            vt,
            element,
        } => COMPUTING | op as u32 | at(vd, 6) | at(lane, 11) | at(vt, 16) | at(element, 21),
        Inst::Idle { op } => COMPUTING | op as u32,
        Inst::VectorLoad { op, fields } => {
            vector_load(op)
                | at(fields.vt, 16)
                | at(fields.element, 7)
                | at(fields.offset, 0)
                | at(fields.base, 21)
        }
        Inst::VectorStore { op, fields } => {
            vector_store(op)
                | at(fields.vt, 16)
                | at(fields.element, 7)
                | at(fields.offset, 0)
                | at(fields.base, 21)
        }
    }
}

/// The bits that select a branch on a sign: opcode 1 and a number in rt, or opcode 6 or 7.
#[inline]
fn branch_sign(op: BranchSignOp) -> u32 {
    match op {
        BranchSignOp::Bltz => REGIMM,
        BranchSignOp::Bgez => REGIMM | 1 << 16,
        BranchSignOp::Bltzal => REGIMM | 16 << 16,
        BranchSignOp::Bgezal => REGIMM | 17 << 16,
        BranchSignOp::Blez => 6 << 26,
        BranchSignOp::Bgtz => 7 << 26,
    }
}

/// The bits that select a vector load: opcode 50, and the operation in bits 15 to 11.
#[inline]
fn vector_load(op: VectorLoadOp) -> u32 {
    LWC2 | (op as u32) << 11
}

/// The bits that select a vector store: opcode 58, and the operation in bits 15 to 11.
#[inline]
fn vector_store(op: VectorStoreOp) -> u32 {
    SWC2 | (op as u32) << 11
}

/// A word with the fields of `$vD, $vS, $vT[e]` added.
#[inline]
fn with_vectors(word: u32, fields: VectorFields) -> u32 {
    word | at(fields.vd, 6) | at(fields.vs, 11) | at(fields.vt, 16) | at(fields.element, 21)
}

/// A field whose lowest bit is bit `low` of a word.
#[inline]
fn at(field: u8, low: u32) -> u32 {
    u32::from(field) << low
}

/// The number of a control register of the vector unit, as `cfc2` and `ctc2` have it.
#[inline]
fn control_bits(control: Control) -> u8 {
    match control {
        Control::Vco => 0,
        Control::Vcc => 1,
        Control::Vce => 2,
    }
}
