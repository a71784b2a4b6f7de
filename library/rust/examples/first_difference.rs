//! The first step after which an emulator of three instructions differs from the machine. Its SRA has a planted fault. See docs/EMULATOR.md.

use rsp::{assemble, first_difference, Bank, Emulator, Machine, RspError, State};

const PROGRAM: &str = "
      lui $1, 0x8000
      sw $1, 16($0)
      sra $2, $1, 4
      sw $2, 20($0)
";

/// In place of your emulator: LUI, SW, and an SRA that shifts zeros in.
struct Mine {
    state: State,
    memories: [Vec<u8>; 3],
}

impl Mine {
    fn step(&mut self) {
        let (pc, state) = (usize::from(self.state.pc), &mut self.state);
        let word = self.memories[Bank::Imem as usize][pc..pc + 4].iter().fold(0, |word, byte| word << 8 | u32::from(*byte));
        let (s, t, d) = (word as usize >> 21 & 31, word as usize >> 16 & 31, word as usize >> 11 & 31);
        match (word >> 26, word & 63) {
            (15, _) => state.words[t] = word << 16,
            (43, _) => {
                let address = (state.words[s] as usize + (word as usize & 0xffff)) % 4096;
                self.memories[Bank::Dmem as usize][address..address + 4].copy_from_slice(&state.words[t].to_be_bytes());
            }
            (0, 3) => state.words[d] = state.words[t] >> (word >> 6 & 31),
            _ => (),
        }
        state.words[0] = 0;
        (state.pc, state.npc) = (state.npc, (state.npc + 4) % 4096);
    }
}

impl Emulator for Mine {
    fn run(&mut self, steps: u32) {
        (0..steps).for_each(|_| self.step());
    }

    fn get(&self) -> State {
        self.state
    }

    fn set(&mut self, state: &State) {
        self.state = *state;
    }

    fn memory(&self, bank: Bank, address: u32, bytes: &mut [u8]) {
        bytes.copy_from_slice(&self.memories[bank as usize][address as usize..][..bytes.len()]);
    }

    fn load(&mut self, bank: Bank, address: u32, bytes: &[u8]) {
        self.memories[bank as usize][address as usize..][..bytes.len()].copy_from_slice(bytes);
    }
}

fn main() -> Result<(), RspError> {
    let mut machine = Machine::new(&[0; 64], 0)?;
    machine.load_words(Bank::Imem, 0, &assemble(PROGRAM, 0)?)?;
    let mut mine = Mine { state: State::default(), memories: [vec![0; 4096], vec![0; 4096], vec![0; 64]] };
    match first_difference(&mut machine, &mut mine, 64, 4)? {
        Some(found) => println!("{found}"),
        None => println!("no difference"),
    }
    Ok(())
}
