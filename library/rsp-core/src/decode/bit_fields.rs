// The bit fields of a word.

use crate::decode::fields::{RegisterFields, ScalarMemoryFields, VectorFields, VectorMemoryFields};
use crate::decode::vector::Control;

/// The `width` bits of a word from bit `low` on.
#[inline(always)]
pub fn bits(word: u32, low: u32, width: u32) -> u8 {
    (word >> low & ((1 << width) - 1)) as u8
}

/// Bits 5 to 0, which select an instruction of opcode 0, and a computing instruction of the vector
/// unit.
#[inline(always)]
pub fn function(word: u32) -> u32 {
    word & 63
}

/// Bits 15 to 0: an immediate or an offset, not sign-extended.
#[inline(always)]
pub fn immediate(word: u32) -> u16 {
    (word & 0xffff) as u16
}

/// Bits 9 to 0: the target of a jump in words, modulo the size of IMEM.
#[inline(always)]
pub fn target(word: u32) -> u16 {
    (word & 0x3ff) as u16
}

/// Bits 12 and 11: a control register; 3 is read as 2.
#[inline(always)]
pub fn control(word: u32) -> Control {
    match word >> 11 & 3 {
        0 => Control::Vco,
        1 => Control::Vcc,
        _ => Control::Vce,
    }
}

/// Whether the byte element is 0 or 8, where a half of the vector register begins.
#[inline(always)]
pub fn begins_half(word: u32) -> bool {
    bits(word, 7, 4) % 8 == 0
}

/// The fields of `$d, $s, $t`.
#[inline(always)]
pub fn register_fields(word: u32) -> RegisterFields {
    RegisterFields {
        rd: bits(word, 11, 5),
        rs: bits(word, 21, 5),
        rt: bits(word, 16, 5),
    }
}

/// The fields of `$t, offset($base)`.
#[inline(always)]
pub fn scalar_memory_fields(word: u32) -> ScalarMemoryFields {
    ScalarMemoryFields {
        rt: bits(word, 16, 5),
        offset: immediate(word),
        base: bits(word, 21, 5),
    }
}

/// The fields of `$vD, $vS, $vT[e]`.
#[inline(always)]
pub fn vector_fields(word: u32) -> VectorFields {
    VectorFields {
        vd: bits(word, 6, 5),
        vs: bits(word, 11, 5),
        vt: bits(word, 16, 5),
        element: bits(word, 21, 4),
    }
}

/// The fields of `$vT[e], offset($base)`.
#[inline(always)]
pub fn vector_memory_fields(word: u32) -> VectorMemoryFields {
    VectorMemoryFields {
        vt: bits(word, 16, 5),
        element: bits(word, 7, 4),
        offset: bits(word, 0, 7),
        base: bits(word, 21, 5),
    }
}
