use crate::decode::{Inst, VectorStoreOp};
use crate::lanes::VReg;
use crate::loadstore::VFile;
use crate::memory::SpMem;

/// Executes a vector store at address `a`, which [`address`](crate::loadstore::address) returns. STV stores
/// two bytes of each of eight registers. An instruction of another group changes nothing.
#[inline(always)]
pub fn store(inst: &Inst, a: u32, file: &VFile, memory: &mut SpMem) {
    if let Inst::VectorStore { op, fields } = *inst {
        store_op(op, fields.vt, fields.element as usize, a, file, memory);
    }
}

/// A store of register `vt`, or its group, with element `e`, at address `a`.
#[inline(always)]
fn store_op(op: VectorStoreOp, vt: u8, e: usize, a: u32, file: &VFile, memory: &mut SpMem) {
    let misalignment = (a % 16) as usize;
    match op {
        VectorStoreOp::Sbv => store_run(vt, e, 1, a, file, memory),
        VectorStoreOp::Ssv => store_run(vt, e, 2, a, file, memory),
        VectorStoreOp::Slv => store_run(vt, e, 4, a, file, memory),
        VectorStoreOp::Sdv => store_run(vt, e, 8, a, file, memory),
        VectorStoreOp::Sqv if misalignment == 0 => store_run(vt, e, 16, a, file, memory),
        VectorStoreOp::Sqv => store_run(vt, e, 16 - misalignment, a, file, memory),
        VectorStoreOp::Srv => store_run(
            vt,
            e + (16 - misalignment),
            misalignment,
            a - a % 16,
            file,
            memory,
        ),
        VectorStoreOp::Spv => store_packed(vt, e, a, file, memory),
        VectorStoreOp::Suv => store_unsigned_packed(vt, e, a, file, memory),
        VectorStoreOp::Shv => store_halves(vt, e, a, file, memory),
        VectorStoreOp::Sfv => store_fourths(vt, e, a, file, memory),
        VectorStoreOp::Swv => store_rotated(vt, e, a, file, memory),
        VectorStoreOp::Stv => store_transposed(vt, e, a, file, memory),
    }
}

/// Stores `n` bytes of a register from address `a` on: its bytes from byte `i` on, modulo 16.
#[inline(always)]
fn store_run(vt: u8, i: usize, n: usize, a: u32, file: &VFile, memory: &mut SpMem) {
    memory.set_bytes(a, &file.reg(vt).bytes_from(i as u8)[..n]);
}

/// SPV: stores eight bytes, with consecutive numbers from `e` on, modulo 16. Number j below 8 is
/// the high byte of lane j, another one bits 14 to 7 of lane j - 8.
#[inline(always)]
fn store_packed(vt: u8, e: usize, a: u32, file: &VFile, memory: &mut SpMem) {
    memory.set_bytes(a, &file.reg(vt).packed_bytes_from(e as u8)[..8]);
}

/// SUV: the same as SPV, with the two cases exchanged.
#[inline(always)]
fn store_unsigned_packed(vt: u8, e: usize, a: u32, file: &VFile, memory: &mut SpMem) {
    memory.set_bytes(a, &file.reg(vt).packed_bytes_from(e as u8 + 8)[..8]);
}

/// SHV: stores bits 14 to 7 of eight pairs of bytes, to every second of the sixteen addresses from
/// a's doubleword on.
fn store_halves(vt: u8, e: usize, a: u32, file: &VFile, memory: &mut SpMem) {
    let block = a - a % 8;
    let bytes = VReg::from_bytes(file.reg(vt).bytes_from(e as u8)).packed_bytes_from(8);
    for j in 0..8 {
        let at = block.wrapping_add((a % 8 + 2 * j as u32) % 16);
        memory.set_byte(at, bytes[j]);
    }
}

/// SFV: stores bits 14 to 7 of four lanes, to every fourth of the sixteen addresses from a's
/// doubleword on.
fn store_fourths(vt: u8, e: usize, a: u32, file: &VFile, memory: &mut SpMem) {
    let block = a - a % 8;
    for j in 0..4 {
        let at = block.wrapping_add((a % 8 + 4 * j as u32) % 16);
        memory.set_byte(at, file.bits_14_to_7(vt, 2 * (e / 2 + j)));
    }
}

/// SWV: stores the sixteen bytes of a register, rotated, from a's doubleword on.
#[inline(always)]
fn store_rotated(vt: u8, e: usize, a: u32, file: &VFile, memory: &mut SpMem) {
    let first = e as u8 + (16 - (a % 8) as u8);
    memory.set_bytes(a - a % 8, &file.reg(vt).bytes_from(first));
}

/// STV: stores one lane of each of eight registers, rotated, from a's doubleword on.
fn store_transposed(vt: u8, e: usize, a: u32, file: &VFile, memory: &mut SpMem) {
    let lanes = diagonal((vt - vt % 8) as usize, e / 2, file);
    memory.set_bytes(a - a % 8, &lanes.bytes_from(16 - (a % 8) as u8));
}

/// One lane of each of the eight registers from `first` on: lane 0 of number `half` of them, lane 1
/// of the next, and so on, modulo 8. Each arm knows `half`, so its code is eight reads at fixed
/// distances.
#[inline(always)]
fn diagonal(first: usize, half: usize, file: &VFile) -> VReg {
    match half {
        0 => diagonal_lanes(first, 0, file),
        1 => diagonal_lanes(first, 1, file),
        2 => diagonal_lanes(first, 2, file),
        3 => diagonal_lanes(first, 3, file),
        4 => diagonal_lanes(first, 4, file),
        5 => diagonal_lanes(first, 5, file),
        6 => diagonal_lanes(first, 6, file),
        _ => diagonal_lanes(first, 7, file),
    }
}

/// The same for one `half`, which LLVM has to know.
#[inline(always)]
fn diagonal_lanes(first: usize, half: usize, file: &VFile) -> VReg {
    VReg::from_array([
        file.at(first + half).lane(0),
        file.at(first + (half + 1) % 8).lane(1),
        file.at(first + (half + 2) % 8).lane(2),
        file.at(first + (half + 3) % 8).lane(3),
        file.at(first + (half + 4) % 8).lane(4),
        file.at(first + (half + 5) % 8).lane(5),
        file.at(first + (half + 6) % 8).lane(6),
        file.at(first + (half + 7) % 8).lane(7),
    ])
}
