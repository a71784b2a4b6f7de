//! Lockstep: an emulator of a few scalar instructions beside the proved machine, from one state on. The first difference is reported with the text of its
//! instruction. The emulator has a fault that is planted: its SRA shifts zeros in. See docs/EMULATOR.md.

use rsp::{assemble, text, Bank, Machine, RspError, Scalars, StepEnd};

const PROGRAM: &str = "
loop: sra $3, $1, 2
      addu $4, $4, $3
      addiu $2, $2, -1
      bne $2, $0, loop
      nop
      break
";

/// In place of your emulator: NOP, SRA, ADDU, ADDIU, BNE, and BREAK, which does nothing here.
struct Emulator<'a> {
    r: [u32; 32],
    pc: u16,
    npc: u16,
    imem: &'a [u32],
    has_fault: bool,
}

impl Emulator<'_> {
    fn step(&mut self) {
        let word = self.imem[usize::from(self.pc / 4)];
        let (s, t, d) = (word as usize >> 21 & 31, word as usize >> 16 & 31, word as usize >> 11 & 31);
        let low = word as u16;
        let (place, mut next) = (self.npc, (self.npc + 4) % 4096);
        match (word >> 26, word & 63) {
            (0, 3) if self.has_fault => self.r[d] = self.r[t] >> (word >> 6 & 31),
            (0, 3) => self.r[d] = (self.r[t] as i32 >> (word >> 6 & 31)) as u32,
            (0, 33) => self.r[d] = self.r[s].wrapping_add(self.r[t]),
            (5, _) if self.r[s] != self.r[t] => next = self.npc.wrapping_add(low.wrapping_mul(4)) % 4096,
            (9, _) => self.r[t] = self.r[s].wrapping_add(low as i16 as u32),
            _ => (),
        }
        self.r[0] = 0;
        (self.pc, self.npc) = (place, next);
    }

    fn regs(&self) -> Scalars {
        Scalars { words: self.r, pc: self.pc, npc: self.npc }
    }
}

/// Steps both from one state on, that of `start`, up to a difference or a halt.
fn lockstep(start: &Machine, emulator: &mut Emulator) -> Result<(), RspError> {
    let mut machine = start.copy()?;
    for steps in 1.. {
        let place = emulator.pc;
        let end = machine.step()?;
        if end != StepEnd::Done {
            println!("no difference in {} steps, then {end}", steps - 1);
            break;
        }
        emulator.step();
        if let Some(found) = machine.regs()?.diff(&emulator.regs()).first() {
            let word = emulator.imem[usize::from(place / 4)];
            println!("step {steps}, {place:03x}: {}", text(word, place.into())?);
            println!("  {}", found.told("on the machine", "in the emulator"));
            break;
        }
    }
    Ok(())
}

fn main() -> Result<(), RspError> {
    let imem = assemble(PROGRAM, 0)?;
    let mut machine = Machine::new(&[0; 64], 0)?;
    machine.load_words(Bank::Imem, 0, &imem)?;
    let mut state = machine.get()?;
    state.words[1] = -64i32 as u32;
    state.words[2] = 4;
    if let Some(field) = state.fault() {
        eprintln!("no machine has this state: {field}");
    }
    machine.set(&state)?;
    for has_fault in [true, false] {
        let (r, pc, npc) = (state.words, state.pc, state.npc);
        lockstep(&machine, &mut Emulator { r, pc, npc, imem: &imem, has_fault })?;
    }
    Ok(())
}
