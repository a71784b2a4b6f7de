use crate::decode::{Inst, LoadOp, StoreOp};
use crate::memory::SpMem;
use crate::numbers::sign_extend;
use crate::scalar::Regs;

/// The address of a load or store, modulo 2^32: register `base`, below 32, plus the sign-extended
/// offset.
#[inline(always)]
pub fn address(regs: &Regs, base: u8, offset: u16) -> u32 {
    regs.get(base).wrapping_add(sign_extend(offset))
}

/// What a load reads at address `a`.
#[inline(always)]
fn loaded(op: LoadOp, memory: &SpMem, a: u32) -> u32 {
    match op {
        LoadOp::Lb => (memory.byte(a).cast_signed() as i32).cast_unsigned(),
        LoadOp::Lh => sign_extend(memory.half(a)),
        LoadOp::Lw | LoadOp::Lwu => memory.word(a),
        LoadOp::Lbu => u32::from(memory.byte(a)),
        LoadOp::Lhu => u32::from(memory.half(a)),
    }
}

/// Writes the low 1, 2 or 4 bytes of `t` at address `a`.
#[inline(always)]
fn write(op: StoreOp, memory: &mut SpMem, a: u32, t: u32) {
    match op {
        StoreOp::Sb => memory.set_byte(a, (t % 256) as u8),
        StoreOp::Sh => memory.set_half(a, (t % 65536) as u16),
        StoreOp::Sw => memory.set_word(a, t),
    }
}

/// Executes a scalar load: reads 1, 2 or 4 bytes of DMEM into a register. The address of each byte
/// is taken modulo 4096. Any other instruction changes nothing.
#[inline(always)]
pub fn load(inst: &Inst, regs: &mut Regs, memory: &SpMem) {
    if let Inst::Load { op, fields } = *inst {
        let a = address(regs, fields.base, fields.offset);
        regs.set(fields.rt, loaded(op, memory, a));
    }
}

/// Executes a scalar store: writes the low 1, 2 or 4 bytes of a register to DMEM. The address of
/// each byte is taken modulo 4096. Any other instruction changes nothing.
#[inline(always)]
pub fn store(inst: &Inst, regs: &Regs, memory: &mut SpMem) {
    if let Inst::Store { op, fields } = *inst {
        let a = address(regs, fields.base, fields.offset);
        write(op, memory, a, regs.get(fields.rt));
    }
}
