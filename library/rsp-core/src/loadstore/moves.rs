use crate::decode::{Inst, MoveOp};
use crate::lanes::{Bytes16, VReg};
use crate::loadstore::VFile;
use crate::numbers::sign_extend;
use crate::support::{BigEndian, ByteOrder};

/// What MFC2 reads: the sixteen bits at bytes `element` and `element + 1` modulo 16 of a vector
/// register, sign-extended. For another instruction it is 0.
pub fn move_from(inst: &Inst, file: &VFile) -> u32 {
    match *inst {
        Inst::MoveVector {
            op: MoveOp::From,
            vector,
            element,
            ..
        } => sign_extend(half(&file.reg(vector), element as usize)),
        _ => 0,
    }
}

/// The sixteen bits at bytes `e` and `e + 1` modulo 16 of a register: one lane from an even byte
/// on, otherwise parts of two.
#[inline(always)]
fn half(v: &VReg, e: usize) -> u16 {
    let lane = v.lane(e / 2);
    if e % 2 == 0 {
        lane
    } else {
        lane % 256 * 256 + v.lane((e + 1) / 2 % 8) / 256
    }
}

/// Executes MTC2: byte `element` of a vector register takes bits 15 to 8 of `value`, and the next
/// byte bits 7 to 0. What would be byte 16 is dropped. Another instruction changes nothing.
pub fn move_to(inst: &Inst, value: u32, file: &mut VFile) {
    if let Inst::MoveVector {
        op: MoveOp::To,
        vector,
        element,
        ..
    } = *inst
    {
        set_half(vector, element, value, file);
    }
}

/// Writes the low sixteen bits of `value` to bytes `e` and `e + 1` of register `n`. What would be
/// byte 16 is dropped.
#[inline(always)]
fn set_half(n: u8, e: u8, value: u32, file: &mut VFile) {
    let v = file.reg(n);
    let mut half = [0; 16];
    BigEndian::write_u16(&mut half, (value % 65536) as u16);
    file.set_reg(n, v.with_bytes(Bytes16::from_array(half), e, 2));
}
