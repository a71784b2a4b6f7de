// Where words lead, and which of their addresses have labels.

use crate::decode::{Operand, is_canonical};
use crate::dis::operand::operand_target;
use crate::support::select_row;

/// The addresses of words that have labels: those that a jump or a branch of the words leads to.
pub struct Targets {
    marks: [bool; 1024],
}

/// The address that the first operand with a target leads to.
fn operands_target(kinds: &[Operand], word: u32, address: u16) -> Option<u16> {
    for kind in kinds {
        if let Some(target) = operand_target(*kind, word, address) {
            return Some(target);
        }
    }
    None
}

/// The address that a word leads to: the target of a jump, or of a branch if that is in IMEM. None
/// for any other word.
fn word_target(word: u32, address: u16) -> Option<u16> {
    match select_row(word) {
        Some(row) if is_canonical(word) => operands_target(row.operands, word, address),
        _ => None,
    }
}

impl Targets {
    /// The targets of words from `origin` on, a multiple of 4; they must end at 4096 at the latest.
    /// A target that is the address of none of them isn't among these.
    pub fn of(origin: u16, words: &[u32]) -> Targets {
        let end = origin + 4 * words.len() as u16;
        let mut marks = [false; 1024];
        for i in 0..words.len() {
            if let Some(target) = word_target(words[i], origin + 4 * i as u16) {
                if origin <= target && target < end {
                    marks[usize::from(target / 4)] = true;
                }
            }
        }
        Targets { marks }
    }

    /// Whether an address, a multiple of 4, has a label.
    pub fn contains(&self, address: u16) -> bool {
        self.marks[usize::from(address / 4)]
    }
}
