//! What the modules use of other crates in the repository: numbers with the highest byte first, and a text of bounded length.

use crate::decode::{TableRow, table};
use core::ops::Deref;

pub(crate) struct BigEndian;

pub(crate) trait ByteOrder {
    fn read_u16(bytes: &[u8; 2]) -> u16;
    fn read_u32(bytes: &[u8; 4]) -> u32;
    fn write_u16(bytes: &mut [u8], number: u16);
    fn write_u32(bytes: &mut [u8], number: u32);
    fn write_u32_into(words: &[u32], bytes: &mut [u8]);
}

impl ByteOrder for BigEndian {
    #[inline(always)]
    fn read_u16(bytes: &[u8; 2]) -> u16 {
        u16::from_be_bytes(*bytes)
    }

    #[inline(always)]
    fn read_u32(bytes: &[u8; 4]) -> u32 {
        u32::from_be_bytes(*bytes)
    }

    #[inline(always)]
    fn write_u16(bytes: &mut [u8], number: u16) {
        bytes[..2].copy_from_slice(&number.to_be_bytes());
    }

    #[inline(always)]
    fn write_u32(bytes: &mut [u8], number: u32) {
        bytes[..4].copy_from_slice(&number.to_be_bytes());
    }

    fn write_u32_into(words: &[u32], bytes: &mut [u8]) {
        for (to, word) in bytes.chunks_exact_mut(4).zip(words) {
            to.copy_from_slice(&word.to_be_bytes());
        }
    }
}

/// The digits of a number.
pub(crate) struct Buffer([u8; 5]);

impl Buffer {
    pub(crate) fn new() -> Buffer {
        Buffer([b'0'; 5])
    }

    pub(crate) fn format(&mut self, number: u16) -> &str {
        let (mut first, mut rest) = (4, number);
        while rest >= 10 {
            self.0[first] = b'0' + (rest % 10) as u8;
            rest /= 10;
            first -= 1;
        }
        self.0[first] = b'0' + rest as u8;
        core::str::from_utf8(&self.0[first..]).unwrap_or_default()
    }
}

/// A text of at most `N` bytes, which needs no memory of the heap.
#[derive(Clone, Copy, Debug, PartialEq, Eq)]
pub struct ArrayString<const N: usize> {
    bytes: [u8; N],
    len: usize,
}

impl<const N: usize> ArrayString<N> {
    pub(crate) fn new() -> ArrayString<N> {
        ArrayString {
            bytes: [0; N],
            len: 0,
        }
    }

    pub(crate) fn push_str(&mut self, text: &str) {
        self.bytes[self.len..][..text.len()].copy_from_slice(text.as_bytes());
        self.len += text.len();
    }

    pub(crate) fn push(&mut self, c: char) {
        self.push_str(c.encode_utf8(&mut [0; 4]));
    }

    /// The text.
    pub fn as_str(&self) -> &str {
        core::str::from_utf8(&self.bytes[..self.len]).unwrap_or_default()
    }
}

impl<const N: usize> Deref for ArrayString<N> {
    type Target = str;

    fn deref(&self) -> &str {
        self.as_str()
    }
}

impl<const N: usize> core::fmt::Display for ArrayString<N> {
    fn fmt(&self, f: &mut core::fmt::Formatter<'_>) -> core::fmt::Result {
        f.write_str(self)
    }
}

/// The hexadecimal digit of a number below 16, as an ASCII byte.
pub(crate) fn hex_digit(n: u32) -> u8 {
    b"0123456789abcdef"[n as usize % 16]
}

/// The instruction of a word; None of a reserved word. The bits of the word that the instruction ignores may be set.
pub(crate) fn select_row(word: u32) -> Option<TableRow> {
    table()
        .iter()
        .find(|row| word & row.mask == row.value)
        .copied()
}
