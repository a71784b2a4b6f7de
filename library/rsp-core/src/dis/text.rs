// The disassembly of a word.

use crate::decode::{Operand, TableRow, is_canonical};
use crate::dis::line::Line;
use crate::dis::numbers::{push_hex3, push_hex4};
use crate::dis::operand::{has_text, operand_target, push_operand};
use crate::dis::targets::Targets;
use crate::support::select_row;

/// Whether each operand has a text: none is a branch out of IMEM.
fn have_texts(kinds: &[Operand], word: u32, address: u16) -> bool {
    for kind in kinds {
        if !has_text(*kind, word, address) {
            return false;
        }
    }
    true
}

/// Appends the name of an address's label.
fn push_label(line: &mut Line, address: u16) {
    line.push_str("L");
    push_hex3(line, u32::from(address));
}

/// Appends an operand, or the name of the label that it leads to.
fn push_named(line: &mut Line, kind: Operand, word: u32, address: u16, labels: Option<&Targets>) {
    if let Some(labels) = labels {
        if let Some(target) = operand_target(kind, word, address) {
            if labels.contains(target) {
                push_label(line, target);
                return;
            }
        }
    }
    push_operand(line, kind, word, address);
}

/// Appends the operands after the first, each after a comma and a space.
fn push_more(
    line: &mut Line,
    kinds: &[Operand],
    word: u32,
    address: u16,
    labels: Option<&Targets>,
) {
    for kind in kinds {
        line.push_str(", ");
        push_named(line, *kind, word, address, labels);
    }
}

/// Appends the operands after a name.
fn push_operands(
    line: &mut Line,
    kinds: &[Operand],
    word: u32,
    address: u16,
    labels: Option<&Targets>,
) {
    if let [first, more @ ..] = kinds {
        line.push_str(" ");
        push_named(line, *first, word, address, labels);
        push_more(line, more, word, address, labels);
    }
}

/// A word as an instruction.
fn row_line(row: TableRow, word: u32, address: u16, labels: Option<&Targets>) -> Line {
    let mut line = Line::new();
    line.push_str(row.name);
    push_operands(&mut line, row.operands, word, address, labels);
    line
}

/// A word as a number.
fn plain_line(word: u32) -> Line {
    let mut line = Line::new();
    line.push_str(".word 0x");
    push_hex4(&mut line, word / 16 / 16 / 16 / 16);
    push_hex4(&mut line, word);
    line
}

/// The disassembly of a word, with the labels if there are some.
fn word_line(word: u32, address: u16, labels: Option<&Targets>) -> Line {
    if word == 0 {
        let mut line = Line::new();
        line.push_str("nop");
        return line;
    }
    match select_row(word) {
        Some(row) if is_canonical(word) && have_texts(row.operands, word, address) => {
            row_line(row, word, address, labels)
        }
        _ => plain_line(word),
    }
}

/// The canonical disassembly of a word at `address`, a byte address in IMEM below 4096. Assembled
/// at the same address, a multiple of 4, it gives the word back.
///
/// - The word 0 is `nop`.
/// - `.word 0x` and eight digits is a reserved word, a word with an ignored bit set, or a branch
///   whose target, without wrapping, is outside IMEM, because targets in a text are addresses from
///   0 to 4092.
/// - Every other word is its instruction's name and operands, in lower case.
pub fn text_of(word: u32, address: u16) -> Line {
    word_line(word, address, None)
}

/// The disassembly of a word at `address`, as of [`text_of`], with the name of the label as the
/// operand that leads to one of these targets.
pub fn labelled_text_of(word: u32, address: u16, targets: &Targets) -> Line {
    word_line(word, address, Some(targets))
}

/// The name of the label of an address in IMEM: `L` and three hexadecimal digits. No disassembly
/// has such a word.
pub fn label_of(address: u16) -> Line {
    let mut line = Line::new();
    push_label(&mut line, address);
    line
}
