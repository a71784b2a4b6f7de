//! A shared object for `conformance/campaign`: an emulator of LUI, SRA and SW. Its SRA has a planted fault. See docs/CAMPAIGN.md.

use rsp::{Bank, Emulator, State, StepEnd};

/// In place of your emulator.
struct Mine {
    state: State,
    memories: [Vec<u8>; 3],
}

impl Default for Mine {
    fn default() -> Mine {
        Mine { state: State::default(), memories: [vec![0; 4096], vec![0; 4096], vec![0; 16384]] }
    }
}

impl Mine {
    fn step(&mut self) -> StepEnd {
        let (pc, state) = (usize::from(self.state.pc), &mut self.state);
        let word = self.memories[Bank::Imem as usize][pc..pc + 4].iter().fold(0, |word, byte| word << 8 | u32::from(*byte));
        let (s, t, d) = (word as usize >> 21 & 31, word as usize >> 16 & 31, word as usize >> 11 & 31);
        match (word >> 26, word & 63) {
            (15, _) => state.words[t] = word << 16,
            (43, _) => {
                let address = state.words[s].wrapping_add(word as i16 as u32) as usize;
                for (n, byte) in state.words[t].to_be_bytes().into_iter().enumerate() {
                    self.memories[Bank::Dmem as usize][address.wrapping_add(n) % 4096] = byte;
                }
            }
            (0, 3) => state.words[d] = state.words[t] >> (word >> 6 & 31),
            _ => return StepEnd::Reserved, // it is not there
        }
        state.words[0] = 0;
        state.sp[4] |= state.sp[4] >> 5 & 1; // single step
        (state.pc, state.npc) = (state.npc, (state.npc + 4) % 4096);
        StepEnd::Done
    }
}

impl Emulator for Mine {
    fn run(&mut self, steps: u32) {
        for _ in 0..steps {
            self.step();
        }
    }

    fn get(&self) -> State {
        self.state
    }

    fn set(&mut self, state: &State) {
        self.state = *state;
    }

    fn memory(&self, bank: Bank, address: u32, bytes: &mut [u8]) {
        bytes.copy_from_slice(&self.memories[bank as usize][address as usize..][..bytes.len()]);
    }

    fn load(&mut self, bank: Bank, address: u32, bytes: &[u8]) {
        self.memories[bank as usize][address as usize..][..bytes.len()].copy_from_slice(bytes);
    }

    fn case(&mut self) -> StepEnd {
        self.step()
    }
}

rsp::cases!(Mine);
