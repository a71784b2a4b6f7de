//! A console that owns RDRAM and the registers of the RDP, as examples/c/console.hpp.

use crate::raw::SAVESTATE_BYTES;
use crate::shapes::Dma;
use crate::{Bank, Machine, MoveEnd, Reason, RspError, STATUS_WRITES};

const IMAGE: usize = 64; // of the machine, which never uses it
const STATE: usize = SAVESTATE_BYTES + IMAGE;
const BANK: usize = 4096;
const PAST_END: usize = 1 << 24;
const MOST_STEPS: u32 = 1_000_000;
const DPC: u16 = 0xff00; // SP registers 8 to 15

/// A machine for an emulator that keeps RDRAM itself, and lends it to each call: up to 2^24 bytes, a multiple of 8. RDRAM reads 0 after its end, and
/// drops writes there.
///
/// If your emulator has an RDP, copy this file, and start the RDP where `dpc` is written.
pub struct Console {
    /// The machine.
    pub machine: Machine,
    /// SP registers 8 to 15, which belong to the RDP.
    pub dpc: [u32; 8],
}

impl Console {
    /// A console with a new machine, which isn't halted.
    pub fn new() -> Result<Console, RspError> {
        Ok(Console { machine: Machine::new(&[0; IMAGE], 0)?, dpc: [0; 8] })
    }

    /// Makes at most `budget` steps, and returns how many. Makes fewer if the machine halts or comes to a reserved word, and returns right after a
    /// step that raised the interrupt.
    pub fn run(&mut self, rdram: &mut [u8], budget: u32) -> Result<u32, RspError> {
        let mut left = budget;
        while left > 0 {
            let event = self.machine.event(left.min(MOST_STEPS), DPC, u32::from(DPC) | STATUS_WRITES)?;
            match (event.at, event.dma) {
                (MoveEnd::Stop(stop), _) => {
                    left -= stop.steps;
                    if !matches!(stop.reason, Reason::Limit | Reason::Status) {
                        break;
                    }
                }
                // the step over a DMA or a move, before which the machine stopped, is one more
                (MoveEnd::Move { steps, .. }, Some(dma)) => {
                    left -= steps + 1;
                    self.machine.pass_dma()?; // first, because the bytes may overwrite the word at pc
                    self.transfer(rdram, &dma)?;
                }
                (MoveEnd::Move { steps, number, writes, value, .. }, None) => {
                    left -= steps + 1;
                    let register = &mut self.dpc[number as usize - 8];
                    if writes {
                        *register = value;
                    }
                    self.machine.pass_move(*register)?;
                }
            }
        }
        Ok(budget - left)
    }

    /// Whether the RSP's interrupt is raised. The CPU clears it by SP_STATUS.
    pub fn interrupt(&self) -> Result<bool, RspError> {
        Ok(self.machine.sp()?.interrupt == 1)
    }

    /// The CPU reads an SP register, 0 to 15.
    pub fn read(&mut self, number: u32) -> Result<u32, RspError> {
        match self.dpc.get((number as usize).wrapping_sub(8)) {
            Some(value) => Ok(*value),
            None => self.machine.read(number),
        }
    }

    /// The CPU writes one. A write to register 2 or 3 is a DMA.
    pub fn write(&mut self, rdram: &mut [u8], number: u32, value: u32) -> Result<(), RspError> {
        if let Some(register) = self.dpc.get_mut((number as usize).wrapping_sub(8)) {
            *register = value;
            return Ok(());
        }
        match self.machine.write_dma(number, value)? {
            Some(dma) => self.transfer(rdram, &dma),
            None => Ok(()),
        }
    }

    /// All of the console and RDRAM as bytes: the machine's savestate, `dpc`, `rdram`; those of `Console` in C++.
    pub fn save(&self, rdram: &[u8]) -> Result<Vec<u8>, RspError> {
        let mut out = self.machine.save_state()?;
        out.extend(self.dpc.iter().flat_map(|word| word.to_be_bytes()));
        out.extend_from_slice(rdram);
        Ok(out)
    }

    /// Sets all of the console and RDRAM from such bytes. Refused, with nothing changed, if they aren't of a console with this length of RDRAM.
    pub fn restore(&mut self, rdram: &mut [u8], bytes: &[u8]) -> Result<(), RspError> {
        let dpc = 4 * self.dpc.len();
        let is_whole = bytes.len() == STATE + dpc + rdram.len();
        let length = if is_whole { STATE } else { bytes.len().min(STATE - 1) }; // which are too few
        self.machine.load_state(&bytes[..length])?;
        let (words, contents) = bytes[STATE..].split_at(dpc);
        for (register, word) in self.dpc.iter_mut().zip(words.chunks_exact(4)) {
            *register = u32::from_be_bytes([word[0], word[1], word[2], word[3]]);
        }
        rdram.copy_from_slice(contents);
        Ok(())
    }

    /// Moves the bytes of a DMA, in runs that wrap in neither memory.
    fn transfer(&mut self, rdram: &mut [u8], dma: &Dma) -> Result<(), RspError> {
        let bank = if dma.bank == 0 { Bank::Dmem } else { Bank::Imem };
        let (mut sp, mut at) = (dma.address as usize, dma.rdram as usize);
        for _ in 0..dma.rows {
            let mut left = dma.length as usize;
            while left > 0 {
                at %= PAST_END;
                let end = if at < rdram.len() { rdram.len() } else { PAST_END };
                let n = left.min(BANK - sp).min(end - at);
                self.transfer_run(bank, sp as u32, rdram.get_mut(at..at + n), n, dma.to_rdram == 1)?;
                (sp, at, left) = ((sp + n) % BANK, at + n, left - n);
            }
            at += dma.skip as usize;
        }
        Ok(())
    }

    /// Moves `n` bytes; without `run` they are past the end of RDRAM.
    fn transfer_run(&mut self, bank: Bank, sp: u32, run: Option<&mut [u8]>, n: usize, to_rdram: bool) -> Result<(), RspError> {
        match (run, to_rdram) {
            (Some(bytes), true) => self.machine.memory(bank, sp, bytes),
            (Some(bytes), false) => self.machine.load(bank, sp, bytes),
            (None, true) => Ok(()),
            (None, false) => self.machine.load(bank, sp, &[0; BANK][..n]),
        }
    }
}
