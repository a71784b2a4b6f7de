//! rsp-core as an emulator of a campaign, which compares it with the proved machine.
use rsp::{Bank, Emulator, State, StepEnd};
use rsp_core::{
    acc::PlaneAcc,
    divide::Divider,
    lanes::{Flags, Mask8},
    machine::{self, AllRegisters},
    memory::{Bank as B, Rdram},
    regs::SpParts,
};
struct Mine(machine::Machine<PlaneAcc>);
impl Default for Mine {
    fn default() -> Mine {
        Mine(machine::Machine::new(Rdram::from_bytes(vec![0; 16384]).ok().unwrap()))
    }
}
fn bank(b: Bank) -> B {
    match b {
        Bank::Dmem => B::Dmem,
        Bank::Imem => B::Imem,
        _ => B::Rdram,
    }
}
impl Emulator for Mine {
    fn run(&mut self, steps: u32) {
        self.0.steps(steps.into());
    }
    fn get(&self) -> State {
        let (a, mut s) = (self.0.all_registers(), State::default());
        (s.words, s.vectors, s.pc, s.npc) = (a.registers, a.vectors, a.pc, a.npc);
        (s.accumulators.high, s.accumulators.middle, s.accumulators.low) = (a.accumulators_high, a.accumulators_middle, a.accumulators_low);
        let f = &a.flags;
        (s.flags.carry, s.flags.differ, s.flags.compare, s.flags.clip, s.flags.extra) =
            (f.carry.bits(), f.differ.bits(), f.compare.bits(), f.clip.bits(), f.extra.bits());
        (s.divider.input, s.divider.output, s.divider.loaded) = (a.divider.input, a.divider.output, a.divider.loaded.into());
        s.sp = std::array::from_fn(|i| self.0.sp_regs().peek(i as u32));
        s.interrupt = self.0.sp_regs().interrupt().into();
        s
    }
    fn set(&mut self, s: &State) {
        let st = s.sp[4];
        let bit = |n: u32| st >> n & 1 != 0;
        let given = AllRegisters {
            pc: s.pc,
            npc: s.npc,
            registers: s.words,
            vectors: s.vectors,
            accumulators_high: s.accumulators.high,
            accumulators_middle: s.accumulators.middle,
            accumulators_low: s.accumulators.low,
            flags: Flags {
                carry: Mask8::from_bits(s.flags.carry),
                differ: Mask8::from_bits(s.flags.differ),
                compare: Mask8::from_bits(s.flags.compare),
                clip: Mask8::from_bits(s.flags.clip),
                extra: Mask8::from_bits(s.flags.extra),
            },
            divider: Divider { input: s.divider.input, output: s.divider.output, loaded: s.divider.loaded != 0 },
            sp: SpParts {
                memory: s.sp[0],
                dram: s.sp[1],
                skip: s.sp[2] >> 20,
                halted: bit(0),
                broke: bit(1),
                single_step: bit(5),
                intbreak: bit(6),
                signals: std::array::from_fn(|i| bit(7 + i as u32)),
                interrupt: s.interrupt != 0,
                semaphore: s.sp[7] & 1 != 0,
                dpc: std::array::from_fn(|i| s.sp[8 + i]),
            },
        };
        self.0.set_all_registers(&given).unwrap();
    }
    fn memory(&self, b: Bank, address: u32, bytes: &mut [u8]) {
        let n = bytes.len();
        match bank(b) {
            B::Dmem => (0..n).for_each(|i| bytes[i] = self.0.dmem().byte(address + i as u32)),
            B::Imem => (0..n).for_each(|i| bytes[i] = self.0.imem().byte(address + i as u32)),
            B::Rdram => bytes.copy_from_slice(&self.0.rdram().bytes()[address as usize..][..n]),
        }
    }
    fn load(&mut self, b: Bank, address: u32, bytes: &[u8]) {
        self.0.load_bytes(bank(b), address, bytes).unwrap();
    }
    fn steps(&mut self, steps: u32) -> u32 {
        self.0.steps(steps.into()) as u32
    }
    fn case(&mut self) -> StepEnd {
        match self.0.step() {
            machine::StepEnd::Done => StepEnd::Done,
            machine::StepEnd::Halted => StepEnd::Halted,
            _ => StepEnd::Reserved,
        }
    }
}
rsp::cases!(Mine);
