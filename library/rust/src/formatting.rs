//! Registers as text, in the lines that scripts show, and where a run stopped, in words.

use crate::helpers::{structure_text, Structure};
use crate::raw::structure;
use crate::{Accumulators, Bank, Changes, DivideState, FlagBits, Line, Machine, Reason, Scalars, SpWords, State, Stop, Traced};
use std::fmt::{Debug, Display, Formatter, Result};

impl From<&State> for Scalars {
    fn from(state: &State) -> Scalars {
        Scalars { words: state.words, pc: state.pc, npc: state.npc }
    }
}

/// The lines that scripts show of a struct.
macro_rules! shown {
    ($($name:ident is $kind:ident: $lines:literal)*) => {$(
        // SAFETY: the struct is the one of C of this kind, which the tests of this crate see.
        unsafe impl Structure for $name {
            const KIND: u32 = structure::$kind;
        }

        #[doc = $lines]
        impl Display for $name {
            fn fmt(&self, f: &mut Formatter<'_>) -> Result {
                f.write_str(&structure_text(self))
            }
        }
    )*};
}

shown! {
    Scalars is SCALARS: "The lines of `regs`: pc and npc, then four registers a line."
    Accumulators is ACCUMULATORS: "The lines of `acc`: the 48 bits of an accumulator a line."
    FlagBits is FLAGS: "The first half of the line of `flags`: VCO, VCC and VCE."
    DivideState is DIVIDER: "The second half of the line of `flags`."
    State is STATE: "The lines of `regs`, `vregs` and `flags`."
    SpWords is SP: "A line for each register, and one for the interrupt flag."
    Traced is TRACED: "A step in a line: what was executed, and what it wrote."
    Changes is CHANGES: "The line of its entry in a trace, the lines of `acc`, and the rest in a line."
}

/// The line of `dis`: the address, the word and its disassembly.
impl Display for Line {
    fn fmt(&self, f: &mut Formatter<'_>) -> Result {
        write!(f, "{:03x} {:08x} {}", self.address, self.word, self.text)
    }
}

impl Display for Bank {
    fn fmt(&self, f: &mut Formatter<'_>) -> Result {
        f.write_str(match self {
            Bank::Dmem => "DMEM",
            Bank::Imem => "IMEM",
            Bank::Rdram => "RDRAM",
        })
    }
}

impl Display for Stop {
    fn fmt(&self, f: &mut Formatter<'_>) -> Result {
        write!(f, "{} steps to pc {:03x}: ", self.steps, self.pc)?;
        match self.reason {
            Reason::Reserved => f.write_str("the word at pc is reserved"),
            Reason::Halt => f.write_str("the machine is halted"),
            Reason::Watch(number) => write!(f, "watch {number}"),
            Reason::Break => f.write_str("a breakpoint"),
            Reason::Limit => f.write_str("all steps are made"),
            Reason::Interrupt => f.write_str("the last step raised the interrupt"),
            Reason::Status => f.write_str("the last step wrote SP_STATUS"),
        }
    }
}

/// The address of the next instruction, and of the one after it.
impl Debug for Machine {
    fn fmt(&self, f: &mut Formatter<'_>) -> Result {
        match self.regs() {
            Ok(scalars) => write!(f, "Machine {{ pc: {:#05x}, npc: {:#05x}, .. }}", scalars.pc, scalars.npc),
            Err(refused) => write!(f, "Machine {{ {refused:?} }}"),
        }
    }
}
