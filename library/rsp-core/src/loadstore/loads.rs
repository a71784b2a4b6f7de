use crate::decode::{Inst, VectorLoadOp};
use crate::lanes::{Bytes16, Mask8, VReg};
use crate::loadstore::VFile;
use crate::memory::SpMem;

/// Executes a vector load at address `a`, which [`address`](crate::loadstore::address) returns. LTV writes two
/// bytes of each of eight registers. An instruction of another group changes nothing.
#[inline(always)]
pub fn load(inst: &Inst, a: u32, memory: &SpMem, file: &mut VFile) {
    if let Inst::VectorLoad { op, fields } = *inst {
        load_op(op, fields.vt, fields.element as usize, a, memory, file);
    }
}

/// A load into register `vt`, or its group, with element `e`, at address `a`.
#[inline(always)]
fn load_op(op: VectorLoadOp, vt: u8, e: usize, a: u32, memory: &SpMem, file: &mut VFile) {
    let misalignment = (a % 16) as usize;
    match op {
        VectorLoadOp::Lbv => load_bytes(vt, e, 1, a, memory, file),
        VectorLoadOp::Lsv => load_bytes(vt, e, 2, a, memory, file),
        VectorLoadOp::Llv => load_bytes(vt, e, 4, a, memory, file),
        VectorLoadOp::Ldv => load_bytes(vt, e, 8, a, memory, file),
        VectorLoadOp::Lqv if misalignment == 0 && e == 0 => load_quadword(vt, a, memory, file),
        VectorLoadOp::Lqv => load_part(vt, e, a, memory, file),
        VectorLoadOp::Lrv => load_bytes(vt, 16 - misalignment + e, 16, a - a % 16, memory, file),
        VectorLoadOp::Lpv => load_packed(vt, 256, e, a, memory, file),
        VectorLoadOp::Luv => load_packed(vt, 128, e, a, memory, file),
        VectorLoadOp::Lhv => load_halves(vt, e, a, memory, file),
        VectorLoadOp::Lfv => load_fourths(vt, e, a, memory, file),
        VectorLoadOp::Ltv => load_transposed(vt, e, a, memory, file),
    }
}

/// The sixteen bytes from address `a` on. Each arm makes the vector, so the bytes are read in
/// place. An array that either arm returned would be copied first.
#[inline(always)]
fn window(memory: &SpMem, a: u32) -> Bytes16 {
    match memory.whole_window(a) {
        Some(bytes) => Bytes16::from_array(*bytes),
        None => Bytes16::from_array(memory.window(a)),
    }
}

/// Loads `n` bytes from address `a` on into a register, from byte `i` on; what would be byte 16 or
/// above is dropped.
#[inline(always)]
fn load_bytes(vt: u8, i: usize, n: usize, a: u32, memory: &SpMem, file: &mut VFile) {
    let v = file.reg(vt);
    file.set_reg(vt, v.with_bytes(window(memory, a), i as u8, n as u8));
}

/// LQV of a whole quadword, the load that microcode uses most: it has no byte to keep.
#[inline(always)]
fn load_quadword(vt: u8, a: u32, memory: &SpMem, file: &mut VFile) {
    file.set_reg(vt, VReg::from_rotated(window(memory, a), 0));
}

/// LQV of a part of a quadword. It isn't inlined, so that LLVM inlines the load of a whole one.
#[inline(never)]
fn load_part(vt: u8, e: usize, a: u32, memory: &SpMem, file: &mut VFile) {
    load_bytes(vt, e, 16 - (a % 16) as usize, a, memory, file);
}

/// LPV and LUV: the eight lanes of a register become bytes of the sixteen from a's doubleword on,
/// times a factor.
#[inline]
fn load_packed(vt: u8, factor: u16, e: usize, a: u32, memory: &SpMem, file: &mut VFile) {
    let bytes = window(memory, a - a % 8);
    let start = (a % 8) as u8 + 16 - e as u8;
    file.set_reg(vt, VReg::unpacked_from(bytes, start, factor));
}

/// LHV: the eight lanes of a register become every second byte of the sixteen from a's doubleword
/// on, times 128.
#[inline]
fn load_halves(vt: u8, e: usize, a: u32, memory: &SpMem, file: &mut VFile) {
    let bytes = window(memory, a - a % 8);
    let start = (a % 8) as u8 + 16 - e as u8;
    file.set_reg(vt, VReg::from_halves(bytes, start));
}

/// LFV: four lanes of a register become every fourth byte of the sixteen from a's doubleword on,
/// times 128.
#[inline]
fn load_fourths(vt: u8, e: usize, a: u32, memory: &SpMem, file: &mut VFile) {
    let bytes = window(memory, a - a % 8);
    let fourths = VReg::from_halves(bytes, (a % 8) as u8).even_lanes();
    let taken = Mask8::from_bits(15 << (e / 2));
    let v = file.reg(vt);
    file.set_reg(vt, taken.merge(&fourths, &v));
}

/// LTV: one lane of each of eight registers becomes two bytes of the sixteen from a's doubleword
/// on.
#[inline]
fn load_transposed(vt: u8, e: usize, a: u32, memory: &SpMem, file: &mut VFile) {
    match memory.whole_window(a - a % 8) {
        Some(bytes) => set_diagonal(vt, e, bytes, a, file),
        None => load_transposed_wrapped(vt, e, a, memory, file),
    }
}

/// LTV if some of these bytes wrap in DMEM.
#[cold]
#[inline(never)]
fn load_transposed_wrapped(vt: u8, e: usize, a: u32, memory: &SpMem, file: &mut VFile) {
    set_diagonal(vt, e, &memory.window(a - a % 8), a, file);
}

/// Writes one lane of each of the eight registers of a group: lane 0 of register `e / 2` of the
/// group, lane 1 of the next, and so on, modulo 8. The bytes of the lanes are those of `bytes` from
/// number `e` on, modulo 16; from `e + 8` on if `a` is in the upper doubleword of a quadword.
///
/// Each arm knows the first lane's register, so its code is eight writes at fixed distances. The
/// function isn't inlined and calls nothing, so it saves no registers, and reads the bytes in
/// place.
#[inline(never)]
fn set_diagonal(vt: u8, e: usize, bytes: &[u8; 16], a: u32, file: &mut VFile) {
    let first = (vt - vt % 8) as usize;
    let start = (e as u32 + a / 8 % 2 * 8) as u8;
    let lanes = VReg::from_rotated(Bytes16::from_array(*bytes), start);
    match e / 2 % 8 {
        0 => set_diagonal_lanes(first, 0, lanes, file),
        1 => set_diagonal_lanes(first, 1, lanes, file),
        2 => set_diagonal_lanes(first, 2, lanes, file),
        3 => set_diagonal_lanes(first, 3, lanes, file),
        4 => set_diagonal_lanes(first, 4, lanes, file),
        5 => set_diagonal_lanes(first, 5, lanes, file),
        6 => set_diagonal_lanes(first, 6, lanes, file),
        _ => set_diagonal_lanes(first, 7, lanes, file),
    }
}

/// The same for one `half`, which LLVM has to know.
#[inline(always)]
fn set_diagonal_lanes(first: usize, half: usize, lanes: VReg, file: &mut VFile) {
    for l in 0..8 {
        let i = (l + 8 - half) % 8;
        let mut v = file.at(first + l).to_array();
        v[i] = lanes.lane(i);
        file.put(first + l, VReg::from_array(v));
    }
}
