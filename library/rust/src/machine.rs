//! A machine.

use crate::error::{done, right_version};
use crate::helpers::state_refusal;
use crate::raw::{self, reason, status};
use crate::shapes::{Changes, Dma, State, Traced};
use crate::stops::{Bank, Event, Line, MoveEnd, Reason, StepEnd, Stop};
use crate::texts::{line_of, NO_LINE};
use crate::{RspError, Status};
use std::cell::UnsafeCell;
use std::ptr;

/// A bit of the mask `writes` of [`Machine::event`].
pub const STATUS_WRITES: u32 = 1 << 16;

/// A machine with a copy of an image of RDRAM, breakpoints, watches and a history.
///
/// It is `Send`, but not `Sync`: only one thread at a time uses it.
// SAFETY of all calls below: the handle is BRSP_NONE or as the last call left it, since nothing else writes it; it isn't copied; as it isn't
// `Sync`, one call at a time has it; and each pointer is of a borrow with its own length.
pub struct Machine {
    handle: UnsafeCell<raw::Machine>,
}

// SAFETY: a machine is memory of malloc that its handle alone leads to, and no call keeps anything of a thread.
unsafe impl Send for Machine {}

impl Machine {
    /// A machine with this image (64 to 8388608 bytes, a multiple of 8) and a history of `depth` states, at most 4096.
    pub fn new(image: &[u8], depth: u32) -> Result<Machine, RspError> {
        right_version()?;
        let machine = Machine::none();
        let status = unsafe { raw::brsp_new(machine.at(), image.as_ptr(), image.len(), depth) };
        done(status, "Machine", &[image.len() as u64, depth.into()])?;
        Ok(machine)
    }

    /// A second machine with the same registers and memories. Its history has room for as many states, but is empty, and it has no breakpoints and
    /// no watches.
    pub fn copy(&self) -> Result<Machine, RspError> {
        let machine = Machine::none();
        done(unsafe { raw::brsp_copy(machine.at(), self.at()) }, "copy", &[])?;
        Ok(machine)
    }

    /// A handle that holds no machine.
    fn none() -> Machine {
        Machine { handle: UnsafeCell::new(raw::Machine { at: ptr::null_mut() }) }
    }

    /// The number of bytes of the image of RDRAM.
    pub fn image_length(&self) -> usize {
        let mut out = 0;
        // There is a machine in the handle, so no other status than BRSP_OK comes back.
        unsafe { raw::brsp_image_length(self.at(), &mut out) };
        out
    }

    pub(crate) fn at(&self) -> *mut raw::Machine {
        self.handle.get()
    }

    /// All registers.
    pub fn get(&self) -> Result<State, RspError> {
        let mut out = State::default();
        self.get_into(&mut out)?;
        Ok(out)
    }

    /// All registers, written into an existing state.
    pub fn get_into(&self, out: &mut State) -> Result<(), RspError> {
        done(unsafe { raw::brsp_get(self.at(), out) }, "get", &[])
    }

    /// Sets all registers, and empties the history. The memories stay unchanged.
    pub fn set(&mut self, state: &State) -> Result<(), RspError> {
        match unsafe { raw::brsp_set(self.at(), state) } {
            status::OUT_OF_RANGE => Err(RspError::with_message(Status::OutOfRange, format!("set: {}", state_refusal(state)))),
            other => done(other, "set", &[]),
        }
    }

    /// Writes bytes to a memory from an address on, and empties the history.
    pub fn load(&mut self, bank: Bank, address: u32, bytes: &[u8]) -> Result<(), RspError> {
        done(
            unsafe { raw::brsp_load(self.at(), bank as u32, address, bytes.as_ptr(), bytes.len()) },
            "load",
            &[bank as u64, address.into()],
        )
    }

    /// Writes words to a memory from an address on, the high byte of each first, and empties the history.
    pub fn load_words(&mut self, bank: Bank, address: u32, words: &[u32]) -> Result<(), RspError> {
        done(
            unsafe { raw::brsp_load_words(self.at(), bank as u32, address, words.as_ptr(), words.len()) },
            "load_words",
            &[bank as u64, address.into()],
        )
    }

    /// Fills a buffer with the bytes of a memory from an address on.
    pub fn memory(&self, bank: Bank, address: u32, bytes: &mut [u8]) -> Result<(), RspError> {
        done(
            unsafe { raw::brsp_memory(self.at(), bank as u32, address, bytes.as_mut_ptr(), bytes.len()) },
            "memory",
            &[bank as u64, address.into(), bytes.len() as u64],
        )
    }

    /// Fills a buffer with the words of a memory from an address on, the high byte of each first.
    pub fn memory_words(&self, bank: Bank, address: u32, words: &mut [u32]) -> Result<(), RspError> {
        done(
            unsafe { raw::brsp_memory_words(self.at(), bank as u32, address, words.as_mut_ptr(), words.len()) },
            "memory_words",
            &[bank as u64, address.into(), words.len() as u64],
        )
    }

    /// Executes one instruction.
    pub fn step(&mut self) -> Result<StepEnd, RspError> {
        step_end(unsafe { raw::brsp_step(self.at()) }, "step")
    }

    /// As [`step`](Machine::step), but also writes what the step changed, if it was made.
    pub fn step_changes(&mut self, out: &mut Changes) -> Result<StepEnd, RspError> {
        step_end(unsafe { raw::brsp_step_changes(self.at(), out) }, "step_changes")
    }

    /// Makes 1 to 1000000 steps, up to the first reason to stop.
    pub fn run(&mut self, steps: u32) -> Result<Stop, RspError> {
        let mut out = raw::Stop::default();
        done(unsafe { raw::brsp_run(self.at(), steps, &mut out) }, "run", &[steps.into()])?;
        Ok(seen_stop(&out))
    }

    /// As [`run`](Machine::run), but also stops before an MFC0 from an SP register whose bit is set in `reads`, and before an MTC0 to one whose bit
    /// is set in `writes`: bit r is for register r. It may stop there before the first step. [`pass_move`](Machine::pass_move) steps over the move, and
    /// [`step`](Machine::step) executes it.
    pub fn run_until_move(&mut self, steps: u32, reads: u16, writes: u16) -> Result<MoveEnd, RspError> {
        let mut out = raw::Move::default();
        done(
            unsafe { raw::brsp_run_until_move(self.at(), steps, reads.into(), writes.into(), &mut out) },
            "run_until_move",
            &[steps.into(), reads.into(), writes.into()],
        )?;
        Ok(seen_move(&out))
    }

    /// Runs to the next event, for a caller that owns RDRAM. As [`run_until_move`](Machine::run_until_move), but also stops before each DMA. A move
    /// or a DMA is an event only if a step is left. Stepping over it, by [`pass_move`](Machine::pass_move), [`pass_dma`](Machine::pass_dma) or
    /// [`step`](Machine::step), takes that step.
    ///
    /// With the bit [`STATUS_WRITES`] in `writes` it also stops after each MTC0 to SP_STATUS, whose step it makes. If the machine is then halted,
    /// or the next word is reserved or has a breakpoint, that is the reason. Otherwise the reason is [`Reason::Interrupt`] if that step raised the
    /// interrupt, and [`Reason::Status`] if not. So compare [`Event::interrupt`] with its value before, because the reason can hide an interrupt.
    pub fn event(&mut self, steps: u32, reads: u16, writes: u32) -> Result<Event, RspError> {
        let mut out = raw::Reached::default();
        done(
            unsafe { raw::brsp_event(self.at(), steps, reads.into(), writes, &mut out) },
            "event",
            &[steps.into(), reads.into(), writes.into()],
        )?;
        let dma = (out.at.stop.reason == reason::DMA).then_some(out.dma);
        Ok(Event { at: seen_move(&out.at), dma, status: out.status, interrupt: out.interrupt == 1 })
    }

    /// As [`run`](Machine::run) of as many steps as there are entries, 1 to 1000000, and writes an entry for each step. The other entries stay.
    pub fn trace(&mut self, entries: &mut [Traced]) -> Result<Stop, RspError> {
        let mut out = raw::Stop::default();
        done(unsafe { raw::brsp_trace(self.at(), entries.as_mut_ptr(), entries.len(), &mut out) }, "trace", &[entries.len() as u64])?;
        Ok(seen_stop(&out))
    }

    /// The entries of a trace one by one, up to a stop or `limit` steps. The machine may be up to 1024 steps ahead of the entry.
    pub fn trace_iter(&mut self, limit: u64) -> impl Iterator<Item = Traced> + '_ {
        let mut left = limit;
        let some = std::iter::from_fn(move || {
            let mut entries = vec![Traced::default(); left.min(1024) as usize];
            let stop = self.trace(&mut entries).ok()?;
            entries.truncate(stop.steps as usize);
            left = if stop.reason == Reason::Limit { left - entries.len() as u64 } else { 0 };
            Some(entries)
        });
        some.flatten()
    }

    /// Steps over the MFC0 or MTC0 at pc without executing it; register rt of an MFC0 becomes the value. Empties the history. RspError if another
    /// word is at pc, so the end is never Reserved.
    pub fn pass_move(&mut self, value: u32) -> Result<StepEnd, RspError> {
        step_end(unsafe { raw::brsp_pass_move(self.at(), value) }, "pass_move")
    }

    /// Steps over the DMA at pc, whose bytes the caller then moves. Everything is as after a step, SP registers included, except that the memories
    /// stay unchanged. Empties the history. RspError if the word at pc starts no DMA.
    pub fn pass_dma(&mut self) -> Result<StepEnd, RspError> {
        step_end(unsafe { raw::brsp_pass_dma(self.at()) }, "pass_dma")
    }

    /// The lanes of vector register `n`, below 32.
    pub fn vreg(&self, n: u32) -> Result<[u16; 8], RspError> {
        let mut out = raw::Lanes::default();
        done(unsafe { raw::brsp_vreg(self.at(), n, &mut out) }, "vreg", &[n.into()])?;
        Ok(out.lanes)
    }

    /// Sets scalar register `n`, below 32, and empties the history. Register 0 takes only 0.
    pub fn set_reg(&mut self, n: u32, value: u32) -> Result<(), RspError> {
        if n > 31 || (n == 0 && value != 0) {
            return Err(RspError::out_of_range("set_reg", &[n.into(), value.into()]));
        }
        let mut state = self.get()?;
        state.words[n as usize] = value;
        self.set(&state)
    }

    /// Sets the lanes of vector register `n`, below 32, and empties the history.
    pub fn set_vreg(&mut self, n: u32, lanes: [u16; 8]) -> Result<(), RspError> {
        let mut state = self.get()?;
        *state.vectors.get_mut(n as usize).ok_or_else(|| RspError::out_of_range("set_vreg", &[n.into()]))? = lanes;
        self.set(&state)
    }

    /// Writes SP register `n` as [`write`](Machine::write) does, but moves no byte: returns the DMA that the write starts, if it starts one, whose
    /// bytes the caller then moves.
    pub fn write_dma(&mut self, n: u32, value: u32) -> Result<Option<Dma>, RspError> {
        let mut out = Dma::default();
        done(unsafe { raw::brsp_write_dma(self.at(), n, value, &mut out) }, "write_dma", &[n.into(), value.into()])?;
        Ok((out.rows > 0).then_some(out))
    }

    /// The words of IMEM from an address on, each with its disassembly.
    pub fn listing(&self, address: u32, count: usize) -> Result<Vec<Line>, RspError> {
        if count > 1024 {
            return Err(RspError::out_of_range("listing", &[address.into(), count as u64]));
        }
        let mut lines = vec![NO_LINE; count];
        done(
            unsafe { raw::brsp_listing(self.at(), address, lines.as_mut_ptr(), lines.len()) },
            "listing",
            &[address.into(), count as u64],
        )?;
        Ok(lines.iter().map(line_of).collect())
    }
}

/// The end of a step, or of a call that passes over one, which never ends at a reserved word.
fn step_end(status: u32, call: &str) -> Result<StepEnd, RspError> {
    match status {
        status::HALTED => Ok(StepEnd::Halted),
        status::RESERVED => Ok(StepEnd::Reserved),
        other => done(other, call, &[]).map(|()| StepEnd::Done),
    }
}

fn seen_move(out: &raw::Move) -> MoveEnd {
    if out.stop.reason != reason::MOVE && out.stop.reason != reason::DMA {
        return MoveEnd::Stop(seen_stop(&out.stop));
    }
    let (steps, pc) = (out.stop.steps, out.stop.pc);
    MoveEnd::Move { steps, pc, word: out.word, number: out.number, writes: out.writes == 1, value: out.value }
}

fn seen_stop(out: &raw::Stop) -> Stop {
    let reason = match out.reason {
        reason::RESERVED => Reason::Reserved,
        reason::HALT => Reason::Halt,
        reason::WATCH => Reason::Watch(out.watch),
        reason::BREAK => Reason::Break,
        reason::INTERRUPT => Reason::Interrupt,
        reason::STATUS => Reason::Status,
        _ => Reason::Limit,
    };
    let word = (reason == Reason::Reserved).then_some(out.word);
    Stop { reason, steps: out.steps, pc: out.pc, word }
}

impl Drop for Machine {
    fn drop(&mut self) {
        unsafe { raw::brsp_free(self.at()) }
    }
}
