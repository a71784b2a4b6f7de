// The operands of a word, by their kinds.

use crate::decode::{ByteElements, Operand};
use crate::dis::line::Line;
use crate::dis::numbers::{
    control_text, push_base, push_byte, push_element, push_hex3, push_hex4, push_scaled,
    push_signed, push_small,
};

/// A register's number: the five bits of the word from `low` on.
fn register(word: u32, low: u8) -> u8 {
    (word >> low & 31) as u8
}

/// The low 16 bits of the word.
fn low_half(word: u32) -> u16 {
    (word & 0xffff) as u16
}

/// The byte of a vector register. Some instructions take the first byte of a half alone, 0 or 8,
/// and have one bit for it.
fn byte_element(word: u32, elements: ByteElements) -> u8 {
    match elements {
        ByteElements::All => (word >> 7 & 15) as u8,
        ByteElements::Halves => (word >> 10 & 1) as u8 * 8,
    }
}

/// The target of a branch at `address`, if that is in IMEM: `offset` counts words from the delay
/// slot, modulo 65536.
fn target(address: u16, offset: u16) -> Option<u16> {
    let delay_slot = u32::from(address) + 4;
    if offset < 32768 {
        let target = delay_slot + 4 * u32::from(offset);
        if target < 4096 {
            Some(target as u16)
        } else {
            None
        }
    } else {
        let distance = 4 * (65536 - u32::from(offset));
        if distance <= delay_slot {
            Some((delay_slot - distance) as u16)
        } else {
            None
        }
    }
}

/// Whether an operand has a text: it is no branch, or its target is in IMEM.
pub fn has_text(kind: Operand, word: u32, address: u16) -> bool {
    match kind {
        Operand::BranchTarget => target(address, low_half(word)).is_some(),
        _ => true,
    }
}

/// The address that an operand leads to: the target of a jump, or of a branch if that is in IMEM.
pub fn operand_target(kind: Operand, word: u32, address: u16) -> Option<u16> {
    match kind {
        Operand::JumpTarget => Some((4 * (word & 0x3ff)) as u16),
        Operand::BranchTarget => target(address, low_half(word)),
        _ => None,
    }
}

/// Appends a scalar register.
fn push_scalar(line: &mut Line, n: u8) {
    line.push_str("$");
    push_small(line, n);
}

/// Appends a vector register.
fn push_vector(line: &mut Line, n: u8) {
    line.push_str("$v");
    push_small(line, n);
}

/// Appends an SP register.
fn push_sp(line: &mut Line, n: u8) {
    line.push_str("$c");
    push_small(line, n);
}

/// Appends 16 bits in hexadecimal.
fn push_half(line: &mut Line, n: u16) {
    line.push_str("0x");
    push_hex4(line, u32::from(n));
}

/// Appends an address in IMEM.
fn push_address(line: &mut Line, address: u32) {
    line.push_str("0x");
    push_hex3(line, address);
}

/// Appends the target of a branch at `address`; nothing if the target is outside IMEM.
fn push_target(line: &mut Line, address: u16, offset: u16) {
    if let Some(t) = target(address, offset) {
        push_address(line, u32::from(t));
    }
}

/// Appends an operand of a word at `address`, at most 11 bytes.
pub fn push_operand(line: &mut Line, kind: Operand, word: u32, address: u16) {
    match kind {
        Operand::Scalar(low) => push_scalar(line, register(word, low)),
        Operand::ShiftAmount => push_small(line, register(word, 6)),
        Operand::Signed => push_signed(line, low_half(word)),
        Operand::Unsigned => push_half(line, low_half(word)),
        Operand::JumpTarget => push_address(line, 4 * (word & 0x3ff)),
        Operand::BranchTarget => push_target(line, address, low_half(word)),
        Operand::ScalarMemory => {
            push_signed(line, low_half(word));
            push_base(line, register(word, 21));
        }
        Operand::VectorMemory(scale) => {
            push_scaled(line, scale, (word & 127) as u8);
            push_base(line, register(word, 21));
        }
        Operand::SpRegister => push_sp(line, (word >> 11 & 15) as u8),
        Operand::ControlRegister => line.push_str(control_text((word >> 11 & 3) as u8)),
        Operand::Vector(low) => push_vector(line, register(word, low)),
        Operand::VectorByte(low, elements) => {
            push_vector(line, register(word, low));
            push_byte(line, byte_element(word, elements));
        }
        Operand::VectorElement => {
            push_vector(line, register(word, 16));
            push_element(line, (word >> 21 & 15) as u8);
        }
        Operand::VectorLane => {
            push_vector(line, register(word, 6));
            push_byte(line, (word >> 11 & 7) as u8);
        }
    }
}
