//! The first step after which an emulator differs from the machine.

use crate::helpers::Search;
use crate::raw::{self, request_kind};
use crate::texts::line_of;
use crate::{Bank, Line, Machine, Part, RspError, State, StepEnd};
use std::fmt::{Display, Formatter};

/// The functions of an emulator that [`first_difference`] calls, and a campaign through [`cases!`](crate::cases!).
pub trait Emulator {
    /// Makes this many steps. The machine has made as many, so the emulator isn't halted before any of them, and no word is reserved. BREAK is a
    /// step, which sets bits 0 and 1 of SP_STATUS, `sp[4]`.
    fn run(&mut self, steps: u32);
    /// All registers; those that the emulator lacks as `set` gave them.
    fn get(&self) -> State;
    /// Sets all registers.
    fn set(&mut self, state: &State);
    /// Reads a memory from an address on, as many bytes as the buffer has: all of DMEM and IMEM, 4096 each, and of RDRAM all, as many as the machine's
    /// `image_length`, or those to which a DMA wrote.
    fn memory(&self, bank: Bank, address: u32, bytes: &mut [u8]);
    /// Writes a memory from an address on: all of it, from 0.
    fn load(&mut self, bank: Bank, address: u32, bytes: &[u8]);
    /// Makes this many steps of a campaign's program, and returns how many are done. A core with a pipeline makes them without a pause, and empties
    /// the pipeline only afterwards. This default calls `run`, and returns that all are done.
    fn steps(&mut self, steps: u32) -> u32 {
        self.run(steps);
        steps
    }
    /// Executes the instruction of a campaign's case, and returns how that ended. This default makes a step, and returns that it was done. No
    /// case has a reserved word, so an emulator returns [`StepEnd::Reserved`] for an instruction that it lacks.
    fn case(&mut self) -> StepEnd {
        self.run(1);
        StepEnd::Done
    }
}

/// Sixteen bytes of a memory that differ.
#[derive(Clone, Copy, Debug, PartialEq, Eq)]
#[non_exhaustive]
pub struct Quadword {
    /// The memory.
    pub bank: Bank,
    /// The address of the first byte, a multiple of 16.
    pub address: usize,
    /// The machine's bytes, the first one highest.
    pub value: u128,
    /// The emulator's bytes.
    pub other: u128,
}

/// A step after which a machine and an emulator differ. The machine's values are the first ones.
///
/// `Display` has at most twenty lines: one for the step, and one for each part that differs, such as `$3 is fffffff0 on the machine and 3ffffff0 in
/// the emulator`.
#[derive(Clone, Debug, PartialEq, Eq)]
#[non_exhaustive]
pub struct FirstDifference {
    /// Its number, from 1. 0 means that they differ before the first step, because the emulator didn't keep what `set` and `load` gave it.
    pub step: u32,
    /// Its instruction. The text names an instruction also if the word has bits that it ignores: `ctc2 $12, $vcc, with ignored bits`.
    pub line: Line,
    /// 1, or more if so many steps up to `step` lead to a difference. `line` is then the first of them. Either one of them changed RDRAM where no
    /// DMA wrote, or no step alone leads to the difference, because the emulator has state that `get` and `set` don't carry. `Display` says which,
    /// and what helps.
    pub steps: u32,
    /// The machine's registers before it.
    pub before: State,
    /// The registers that differ after it.
    pub registers: Vec<Part>,
    /// The memories that differ after it.
    pub memories: Vec<Quadword>,
    text: String,
}

impl Display for FirstDifference {
    fn fmt(&self, f: &mut Formatter<'_>) -> std::fmt::Result {
        f.write_str(&self.text)
    }
}

/// The bank of this number.
fn bank_of(number: u32) -> Bank {
    Bank::try_from(number).unwrap_or(Bank::Rdram)
}

/// The quadword of a part, if it is one.
fn quadword_of(it: &raw::Part) -> Option<Quadword> {
    let wide = |[high, low]: [u64; 2]| u128::from(high) << 64 | u128::from(low);
    let bank = Bank::try_from(it.bank).ok()?;
    Some(Quadword { bank, address: it.address as usize, value: wide(it.value), other: wide(it.other) })
}

/// Does what a search asks for. The bytes are those that are asked for, or given.
fn answer(emulator: &mut impl Emulator, request: &raw::Request, bytes: &mut [u8]) {
    match request.kind {
        request_kind::RUN => emulator.run(request.steps),
        request_kind::SET => emulator.set(&State::from_bytes(bytes).unwrap_or_default()),
        request_kind::LOAD => emulator.load(bank_of(request.bank), request.address, bytes),
        request_kind::GET => bytes.copy_from_slice(emulator.get().as_bytes()),
        _ => emulator.memory(bank_of(request.bank), request.address, bytes),
    }
}

/// The first step after which an emulator differs from the machine. `None` if there is no such step within `limit` steps, or before a halt or a
/// reserved word; then [`Machine::step`] tells these apart. Breakpoints and watches are ignored.
///
/// First the machine's registers and memories are copied into the emulator. Then both run in stretches of at most `every` steps, 1 to 1000000,
/// which end before a DMA. After each stretch all registers, DMEM and IMEM are compared, after a DMA also the bytes of RDRAM to which it wrote, and
/// at the end all of RDRAM. If they differ, both go back to the last comparison and are stepped from there. (A wrong value that is
/// overwritten before the end of its stretch isn't seen: repeat with 1 for `every`. What shows only if the emulator makes several steps without a
/// pause needs longer stretches.) Both are left after the step that differs, and the machine's history is empty. Refused with
/// [`OutOfRange`](crate::Status::OutOfRange) if `every` isn't in its range.
pub fn first_difference(
    machine: &mut Machine,
    emulator: &mut impl Emulator,
    every: u32,
    limit: u32,
) -> Result<Option<FirstDifference>, RspError> {
    let mut search = Search::new(machine, every, limit)?;
    loop {
        let (request, bytes) = search.next(machine)?;
        if request.kind == request_kind::OVER {
            break;
        }
        answer(emulator, &request, bytes);
    }
    let (found, parts, text) = search.found();
    if parts.is_empty() {
        return Ok(None);
    }
    let (registers, memories) = (parts.iter().filter_map(Part::of).collect(), parts.iter().filter_map(quadword_of).collect());
    let (step, steps, line, before) = (found.step, found.steps, line_of(&found.line), found.before);
    Ok(Some(FirstDifference { step, line, steps, before, registers, memories, text }))
}
