//! The disassembler: each word has one canonical text, and that assembles back to the word.
//!
//! [`text_of`] finds the word's instruction in the instruction table, and writes its name and its
//! operands.
//!
//! [`Targets`] are the addresses of words that their jumps and branches lead to.

mod line;
mod numbers;
mod operand;
mod targets;
mod text;

pub use line::Line;
pub use targets::Targets;
pub use text::{label_of, labelled_text_of, text_of};
