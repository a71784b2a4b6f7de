// The scalar unit's instructions: those of opcode 0 by their function, of opcode 1 by rt, of opcode
// 16 by rs, and those that have an opcode of their own.

use crate::decode::bit_fields::{
    bits, function, immediate, register_fields, scalar_memory_fields, target,
};
use crate::decode::inst::Inst;
use crate::decode::rows::{arms, instruction_table};
use crate::decode::scalar::{
    BranchEqualOp, BranchSignOp, ImmediateOp, JumpOp, LoadOp, MoveOp, RegisterOp, ShiftOp,
    ShiftVariableOp, StoreOp,
};
use crate::decode::visitor::Visitor;

/// `sll`, `srl` and `sra`: hands the visitor the operation, rd, rt and the shift amount.
#[inline]
fn shift<V: Visitor>(word: u32, op: ShiftOp, visitor: &mut V) {
    visitor.take(Inst::Shift {
        op,
        rd: bits(word, 11, 5),
        rt: bits(word, 16, 5),
        amount: bits(word, 6, 5),
    });
}

/// `sllv`, `srlv` and `srav`: hands the visitor the operation, rd, rt and rs.
#[inline]
fn shift_by<V: Visitor>(word: u32, op: ShiftVariableOp, visitor: &mut V) {
    let fields = register_fields(word);
    visitor.take(Inst::ShiftBy { op, fields });
}

/// `jr`: hands the visitor rs.
#[inline]
fn jump_register<V: Visitor>(word: u32, visitor: &mut V) {
    let rs = bits(word, 21, 5);
    visitor.take(Inst::JumpRegister { rs });
}

/// `jalr`: hands the visitor rd and rs.
#[inline]
fn jump_link_register<V: Visitor>(word: u32, visitor: &mut V) {
    visitor.take(Inst::JumpLinkRegister {
        rd: bits(word, 11, 5),
        rs: bits(word, 21, 5),
    });
}

/// The instructions on two registers, from `add` to `sltu`: hands the visitor the operation, rd, rs
/// and rt.
#[inline]
fn register<V: Visitor>(word: u32, op: RegisterOp, visitor: &mut V) {
    let fields = register_fields(word);
    visitor.take(Inst::Register { op, fields });
}

/// `break`, which has no fields: hands it to the visitor.
#[inline]
fn break_instruction<V: Visitor>(word: u32, visitor: &mut V) {
    visitor.take(Inst::Break);
}

/// Opcode 0: hands the visitor the instruction that the function selects, and returns true. If the
/// function is reserved it returns false, and the visitor is unchanged.
#[inline(always)]
pub fn visit_special<V: Visitor>(word: u32, visitor: &mut V) -> bool {
    instruction_table!(arms(special(function(word), word, visitor)))
}

/// The branches on the sign of a register: hands the visitor the operation, rs and the offset.
#[inline]
fn branch_sign<V: Visitor>(word: u32, op: BranchSignOp, visitor: &mut V) {
    visitor.take(Inst::BranchSign {
        op,
        rs: bits(word, 21, 5),
        offset: immediate(word),
    });
}

/// Opcode 1: hands the visitor the branch that rt selects, and returns true. If rt is reserved it
/// returns false, and the visitor is unchanged.
#[inline(always)]
pub fn visit_regimm<V: Visitor>(word: u32, visitor: &mut V) -> bool {
    instruction_table!(arms(regimm(bits(word, 16, 5), word, visitor)))
}

/// `beq` and `bne`: hands the visitor the operation, rs, rt and the offset.
#[inline]
fn branch_equal<V: Visitor>(word: u32, op: BranchEqualOp, visitor: &mut V) {
    visitor.take(Inst::BranchEqual {
        op,
        rs: bits(word, 21, 5),
        rt: bits(word, 16, 5),
        offset: immediate(word),
    });
}

/// `j` and `jal`: hands the visitor the operation and the target.
#[inline]
fn jump<V: Visitor>(word: u32, op: JumpOp, visitor: &mut V) {
    visitor.take(Inst::Jump {
        op,
        target: target(word),
    });
}

/// The instructions with an immediate, from `addi` to `xori`: hands the visitor the operation, rt,
/// rs and the immediate.
#[inline]
fn with_immediate<V: Visitor>(word: u32, op: ImmediateOp, visitor: &mut V) {
    visitor.take(Inst::Immediate {
        op,
        rt: bits(word, 16, 5),
        rs: bits(word, 21, 5),
        imm: immediate(word),
    });
}

/// `lui`: hands the visitor rt and the immediate.
#[inline]
fn load_upper<V: Visitor>(word: u32, visitor: &mut V) {
    visitor.take(Inst::LoadUpper {
        rt: bits(word, 16, 5),
        imm: immediate(word),
    });
}

/// The scalar loads: hands the visitor the operation, rt, the offset and the base.
#[inline]
fn load<V: Visitor>(word: u32, op: LoadOp, visitor: &mut V) {
    let fields = scalar_memory_fields(word);
    visitor.take(Inst::Load { op, fields });
}

/// The scalar stores: hands the visitor the operation, rt, the offset and the base.
#[inline]
fn store<V: Visitor>(word: u32, op: StoreOp, visitor: &mut V) {
    let fields = scalar_memory_fields(word);
    visitor.take(Inst::Store { op, fields });
}

/// The opcodes that select an instruction alone: hands the visitor that instruction, and returns
/// true. If the opcode is reserved it returns false, and the visitor is unchanged.
#[inline(always)]
pub fn visit_opcode<V: Visitor>(word: u32, visitor: &mut V) -> bool {
    instruction_table!(arms(opcode(bits(word, 26, 6), word, visitor)))
}

/// `mfc0` and `mtc0`: hands the visitor the operation, rt and the SP register.
#[inline]
fn move_sp<V: Visitor>(word: u32, op: MoveOp, visitor: &mut V) {
    visitor.take(Inst::MoveSp {
        op,
        rt: bits(word, 16, 5),
        register: bits(word, 11, 4),
    });
}

/// Opcode 16: hands the visitor the move that rs selects, and returns true. If rs is reserved it
/// returns false, and the visitor is unchanged.
#[inline(always)]
pub fn visit_cop0<V: Visitor>(word: u32, visitor: &mut V) -> bool {
    instruction_table!(arms(cop0(bits(word, 21, 5), word, visitor)))
}
