//! Where a run stopped, and why, and what is next.

use crate::raw::bank;
use crate::shapes::Dma;
use std::fmt;

/// One of the three memories.
#[derive(Clone, Copy, Debug, PartialEq, Eq)]
pub enum Bank {
    /// 4096 bytes of data.
    Dmem = bank::DMEM as isize,
    /// 4096 bytes of instructions.
    Imem = bank::IMEM as isize,
    /// The image.
    Rdram = bank::RDRAM as isize,
}

/// How a step ended.
#[derive(Clone, Copy, Debug, PartialEq, Eq)]
pub enum StepEnd {
    /// One instruction was executed.
    Done,
    /// The machine is halted.
    Halted,
    /// The word at pc is reserved.
    Reserved,
}

impl fmt::Display for StepEnd {
    fn fmt(&self, f: &mut fmt::Formatter<'_>) -> fmt::Result {
        f.write_str(match self {
            StepEnd::Done => "OK",
            StepEnd::Halted => "HALTED",
            StepEnd::Reserved => "RESERVED",
        })
    }
}

/// Why a run stopped.
#[derive(Clone, Copy, Debug, PartialEq, Eq)]
#[non_exhaustive]
pub enum Reason {
    /// The word at pc is reserved.
    Reserved,
    /// The machine is halted.
    Halt,
    /// The last step changed a byte of the watch of this number.
    Watch(usize),
    /// The last step came to a breakpoint.
    Break,
    /// All steps were made.
    Limit,
    /// The last step raised the interrupt by an MTC0: only of [`event`](crate::Machine::event), if it is asked for.
    Interrupt,
    /// The last step was another MTC0 to SP_STATUS: the same.
    Status,
}

/// Where a run stopped.
#[derive(Clone, Copy, Debug, PartialEq, Eq)]
pub struct Stop {
    /// Why.
    pub reason: Reason,
    /// The number of steps that were made.
    pub steps: u32,
    /// The address of the next instruction.
    pub pc: u16,
    /// The word at pc, if it is reserved and the run stopped there.
    pub word: Option<u32>,
}

/// Where a run stopped that also stops before moves of SP registers.
#[derive(Clone, Copy, Debug, PartialEq, Eq)]
#[non_exhaustive]
pub enum MoveEnd {
    /// For another reason.
    Stop(Stop),
    /// Before a move.
    Move {
        /// The number of steps that were made.
        steps: u32,
        /// The address of the move.
        pc: u16,
        /// The move.
        word: u32,
        /// The number of its SP register, 0 to 15.
        number: u32,
        /// Whether it writes that register: MTC0.
        writes: bool,
        /// What its scalar register holds.
        value: u32,
    },
}

/// What [`event`](crate::Machine::event) reached.
#[derive(Clone, Copy, Debug, PartialEq, Eq)]
#[non_exhaustive]
pub struct Event {
    /// Where the run stopped. A DMA is an MTC0 to register 2 or 3.
    pub at: MoveEnd,
    /// The DMA that is next.
    pub dma: Option<Dma>,
    /// SP_STATUS there.
    pub status: u32,
    /// Whether the interrupt flag is set there.
    pub interrupt: bool,
}

impl fmt::Display for Reason {
    fn fmt(&self, f: &mut fmt::Formatter<'_>) -> fmt::Result {
        f.write_str(match self {
            Reason::Reserved => "RESERVED",
            Reason::Halt => "HALT",
            Reason::Watch(_) => "WATCH",
            Reason::Break => "BREAK",
            Reason::Limit => "LIMIT",
            Reason::Interrupt => "INTERRUPT",
            Reason::Status => "STATUS",
        })
    }
}

/// A word of IMEM.
#[derive(Clone, Debug, PartialEq, Eq)]
#[non_exhaustive]
pub struct Line {
    /// Its address.
    pub address: u16,
    /// The word.
    pub word: u32,
    /// Its disassembly.
    pub text: String,
}
