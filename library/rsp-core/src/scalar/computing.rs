use crate::decode::{ImmediateOp, Inst, RegisterOp, ShiftOp, ShiftVariableOp};
use crate::numbers::sign_extend;
use crate::scalar::Regs;

/// A shift to the right that repeats the sign bit.
#[inline(always)]
fn shifted_signed(t: u32, amount: u32) -> u32 {
    (t.cast_signed() >> amount).cast_unsigned()
}

/// A shift by a constant.
#[inline(always)]
fn shift(op: ShiftOp, t: u32, amount: u8) -> u32 {
    match op {
        ShiftOp::Sll => t << amount,
        ShiftOp::Srl => t >> amount,
        ShiftOp::Sra => shifted_signed(t, u32::from(amount)),
    }
}

/// A shift by the low five bits of a register.
#[inline(always)]
fn shift_by(op: ShiftVariableOp, t: u32, s: u32) -> u32 {
    match op {
        ShiftVariableOp::Sllv => t << (s % 32),
        ShiftVariableOp::Srlv => t >> (s % 32),
        ShiftVariableOp::Srav => shifted_signed(t, s % 32),
    }
}

/// An instruction on two registers.
#[inline(always)]
fn register(op: RegisterOp, s: u32, t: u32) -> u32 {
    match op {
        RegisterOp::Add | RegisterOp::Addu => s.wrapping_add(t),
        RegisterOp::Sub | RegisterOp::Subu => s.wrapping_sub(t),
        RegisterOp::And => s & t,
        RegisterOp::Or => s | t,
        RegisterOp::Xor => s ^ t,
        RegisterOp::Nor => !(s | t),
        RegisterOp::Slt => u32::from(s.cast_signed() < t.cast_signed()),
        RegisterOp::Sltu => u32::from(s < t),
    }
}

/// An instruction on a register and an immediate of sixteen bits.
#[inline(always)]
fn immediate(op: ImmediateOp, s: u32, imm: u16) -> u32 {
    match op {
        ImmediateOp::Addi | ImmediateOp::Addiu => s.wrapping_add(sign_extend(imm)),
        ImmediateOp::Slti => u32::from(s.cast_signed() < imm.cast_signed() as i32),
        ImmediateOp::Sltiu => u32::from(s < sign_extend(imm)),
        ImmediateOp::Andi => s & imm as u32,
        ImmediateOp::Ori => s | imm as u32,
        ImmediateOp::Xori => s ^ imm as u32,
    }
}

/// Executes a scalar instruction that computes: shifts, sums, differences, bitwise logic,
/// comparisons and LUI, modulo 2^32. Any other instruction changes nothing.
#[inline(always)]
pub fn alu(inst: &Inst, regs: &mut Regs) {
    match *inst {
        Inst::Shift { op, rd, rt, amount } => regs.set(rd, shift(op, regs.get(rt), amount)),
        Inst::ShiftBy { op, fields } => regs.set(
            fields.rd,
            shift_by(op, regs.get(fields.rt), regs.get(fields.rs)),
        ),
        Inst::Register { op, fields } => regs.set(
            fields.rd,
            register(op, regs.get(fields.rs), regs.get(fields.rt)),
        ),
        Inst::Immediate { op, rt, rs, imm } => regs.set(rt, immediate(op, regs.get(rs), imm)),
        Inst::LoadUpper { rt, imm } => regs.set(rt, (imm as u32) << 16),
        _ => {}
    }
}
