use crate::decode::{Inst, VectorLoadOp, VectorStoreOp};

/// The address of a vector load or store, modulo 2^32: `base`, the value of the base register, plus
/// the signed seven-bit offset times the instruction's scale. For an instruction of another group
/// it is `base`.
#[inline(always)]
pub fn address(inst: &Inst, base: u32) -> u32 {
    match *inst {
        Inst::VectorLoad { op, fields } => displaced(base, fields.offset, load_scale(op)),
        Inst::VectorStore { op, fields } => displaced(base, fields.offset, store_scale(op)),
        _ => base,
    }
}

/// The seven bits of an offset as a signed value.
#[inline(always)]
fn signed_offset(offset: u8) -> i64 {
    if offset < 128 {
        (offset ^ 64) as i64 - 64
    } else {
        offset as i64 - 128
    }
}

/// The base plus the offset times the scale, modulo 2^32.
#[inline(always)]
fn displaced(base: u32, offset: u8, scale: u8) -> u32 {
    (base as i64 + signed_offset(offset) * scale as i64).rem_euclid(1 << 32) as u32
}

/// What the offset of a load is counted in, in bytes.
#[inline(always)]
fn load_scale(op: VectorLoadOp) -> u8 {
    match op {
        VectorLoadOp::Lbv => 1,
        VectorLoadOp::Lsv => 2,
        VectorLoadOp::Llv => 4,
        VectorLoadOp::Ldv | VectorLoadOp::Lpv | VectorLoadOp::Luv => 8,
        _ => 16,
    }
}

/// What the offset of a store is counted in, in bytes.
#[inline(always)]
fn store_scale(op: VectorStoreOp) -> u8 {
    match op {
        VectorStoreOp::Sbv => 1,
        VectorStoreOp::Ssv => 2,
        VectorStoreOp::Slv => 4,
        VectorStoreOp::Sdv | VectorStoreOp::Spv | VectorStoreOp::Suv => 8,
        _ => 16,
    }
}
