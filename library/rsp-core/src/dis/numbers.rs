// Numbers, elements and names as the disassembler writes them. Each function appends to a line,
// which must have room.

use crate::dis::line::Line;
use crate::support::Buffer;
use crate::support::hex_digit;

/// Appends the hexadecimal digit of a number below 16.
fn push_digit(line: &mut Line, n: u32) {
    line.push(char::from(hex_digit(n)));
}

/// Appends the lowest three hexadecimal digits of a number.
pub fn push_hex3(line: &mut Line, n: u32) {
    push_digit(line, n / 16 / 16 % 16);
    push_digit(line, n / 16 % 16);
    push_digit(line, n % 16);
}

/// Appends the lowest four hexadecimal digits of a number.
pub fn push_hex4(line: &mut Line, n: u32) {
    push_hex3(line, n / 16);
    push_digit(line, n % 16);
}

/// Appends a number below 100 in decimal, without a leading zero.
pub fn push_small(line: &mut Line, n: u8) {
    if n >= 10 {
        push_digit(line, u32::from(n / 10));
    }
    push_digit(line, u32::from(n % 10));
}

/// Appends a number in decimal.
fn push_decimal(line: &mut Line, n: u16) {
    let mut buffer = Buffer::new();
    line.push_str(buffer.format(n));
}

/// Appends 16 bits as a signed number in decimal.
pub fn push_signed(line: &mut Line, n: u16) {
    if n < 32768 {
        push_decimal(line, n);
    } else {
        line.push_str("-");
        push_decimal(line, 65535 - n + 1);
    }
}

/// Appends the offset of a vector load or store: 7 bits as a signed number, times the instruction's
/// scale.
pub fn push_scaled(line: &mut Line, scale: u8, n: u8) {
    if n < 64 {
        push_decimal(line, u16::from(n) * u16::from(scale));
    } else {
        line.push_str("-");
        push_decimal(line, (128 - u16::from(n)) * u16::from(scale));
    }
}

/// Appends the byte of a vector register, or a lane, in brackets.
pub fn push_byte(line: &mut Line, e: u8) {
    line.push_str("[");
    push_small(line, e);
    line.push_str("]");
}

/// An element of a computing instruction by its code; element 0 has no text.
fn element_text(e: u8) -> &'static str {
    match e {
        0 => "",
        1 => "[v]",
        2 => "[0q]",
        3 => "[1q]",
        4 => "[0h]",
        5 => "[1h]",
        6 => "[2h]",
        7 => "[3h]",
        8 => "[0]",
        9 => "[1]",
        10 => "[2]",
        11 => "[3]",
        12 => "[4]",
        13 => "[5]",
        14 => "[6]",
        _ => "[7]",
    }
}

/// Appends the element of a computing instruction by its code.
pub fn push_element(line: &mut Line, e: u8) {
    line.push_str(element_text(e));
}

/// Appends the base register of a memory operand, in parentheses.
pub fn push_base(line: &mut Line, n: u8) {
    line.push_str("($");
    push_small(line, n);
    line.push_str(")");
}

/// The name of a control register. Number 3 is VCE as 2 is: the instructions take the low two bits
/// alone.
pub fn control_text(n: u8) -> &'static str {
    match n {
        0 => "$vco",
        1 => "$vcc",
        _ => "$vce",
    }
}
