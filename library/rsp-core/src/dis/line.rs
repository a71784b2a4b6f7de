use crate::support::ArrayString;

/// The disassembly of a word: at most 64 bytes.
pub type Line = ArrayString<64>;
