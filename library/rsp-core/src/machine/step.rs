// Steps, in one loop, and undoing one.
//
// One private loop makes all steps. It keeps pc and npc apart from its machine, so that they are in
// registers of the host, and gives them back when it ends. One step fetches the next word too: the
// price of one loop. The loop tests for a halt only after an instruction that can reach the SP
// registers, or in single step. What stopped the steps isn't returned beside their number: one more
// step says it, and changes nothing. Steps with records end after a step that starts a DMA, since
// such a step can't be undone: so only the last record can be one that undoes nothing.

use crate::acc::Acc;
use crate::lanes::VReg;
use crate::machine::footprint::{Footprint, StepTests};
use crate::machine::machine::Machine;
use crate::machine::record::Record;
use crate::machine::recorder::{NoRecord, Recorder};
use crate::machine::until::{Never, Until};
use core::slice;

/// How a step ended.
#[derive(Clone, Copy, Debug, PartialEq, Eq)]
pub enum StepEnd {
    /// Answer 1: one instruction was executed.
    Done,
    /// Answer 2: the machine is halted, and nothing changed.
    Halted,
    /// Answer 3: the word at pc is reserved, and nothing changed.
    Reserved {
        /// The word at pc.
        word: u32,
    },
}

impl<A: Acc> Machine<A> {
    /// Ends a step: in single step the machine halts. Returns whether the loop goes on. `single`
    /// says whether single step was set when the loop began. If not, single step and halted are
    /// tested only after an instruction that may reach the SP registers.
    #[inline(always)]
    fn end_step<K: Recorder>(&mut self, tests: StepTests, single: bool) -> bool {
        // A case of its own: the other instructions need not carry whether they started a DMA.
        if tests.sp {
            return self.halt_or_go::<K>(tests);
        }
        !single || self.halt_or_go::<K>(tests)
    }

    /// Halts a machine in single step. Returns whether the loop goes on: the machine isn't halted,
    /// and no DMA ends the loop.
    #[inline(always)]
    fn halt_or_go<K: Recorder>(&mut self, tests: StepTests) -> bool {
        self.sp.on_step();
        !self.sp.halted() && !(K::ends_at_dma() && tests.dma)
    }

    /// Makes up to `n` steps and returns how many. It ends earlier if the next step isn't Done, if
    /// a step starts a DMA and the recorders end at one, or if `until` ends it or refuses the next
    /// move. Meanwhile pc and npc are in registers of the host. `until` is asked whether to end
    /// after each step that leaves the machine running, so not before the first.
    #[inline(never)]
    fn run_loop<K: Recorder, U: Until>(&mut self, n: u64, slots: &mut [K], until: &U) -> u64 {
        if self.sp.halted() {
            return 0;
        }
        let single = self.sp.single_step();
        let mut counters = self.counters();
        let mut word = self.word_at(counters);
        let mut made = 0;
        while made < n {
            self.vector_ranges();
            let slot = &mut slots[K::slot(made)];
            let Some(tests) = self.execute::<K, U>(&mut counters, word, slot, until) else {
                break;
            };
            made += 1;
            if !self.end_step::<K>(tests, single) {
                break;
            }
            word = self.word_at(counters);
            if until.ends(counters.pc.get(), word, tests.changes_memory) {
                break;
            }
        }
        self.set_counters(counters);
        made
    }

    /// One step: Halted if the machine is halted, else Reserved if the word at pc is reserved, and
    /// in both cases nothing changes. Else the word's instruction is executed; then, if single step
    /// is set, the machine is halted, and the answer is Done. Many steps are faster by
    /// [`Machine::steps`].
    pub fn step(&mut self) -> StepEnd {
        if self.steps(1) == 1 {
            return StepEnd::Done;
        }
        if self.sp.halted() {
            return StepEnd::Halted;
        }
        StepEnd::Reserved {
            word: self.word_at(self.counters()),
        }
    }

    /// Makes up to `n` steps, as [`Machine::step`] makes them, as long as they are Done. Returns
    /// how many were Done: fewer than `n` if the machine is then halted or the word at pc is
    /// reserved. A further step reports which.
    pub fn steps(&mut self, n: u64) -> u64 {
        self.in_range();
        self.run_loop(n, &mut [NoRecord], &Never)
    }

    /// One step: its answer, and the record that undoes it. The record is None exactly if the
    /// answer isn't Done or a DMA started.
    pub fn step_recorded(&mut self) -> (StepEnd, Option<Record>) {
        let mut record = Record::new();
        if self.steps_recorded_until(slice::from_mut(&mut record), &Never) == 0 {
            return (self.step(), None);
        }
        (StepEnd::Done, record.can_undo().then_some(record))
    }

    /// Makes up to `n` steps, as [`Machine::step`] makes them, as long as they are Done and `until`
    /// neither ends them nor refuses the next one. `until` is asked whether to end after each step
    /// that leaves the machine running, and whether it refuses before each MFC0 and MTC0, which
    /// then isn't executed. Returns how many steps were made: fewer than `n` if a further step
    /// wouldn't be Done, or if `until` ended them or refuses it.
    pub fn steps_until<U: Until>(&mut self, n: u64, until: &U) -> u64 {
        self.run_loop(n, &mut [NoRecord], until)
    }

    /// Makes up to as many steps as there are records, as [`Machine::steps_until`] makes them, and
    /// writes the record of each. It also ends after a step that starts a DMA, so only the last
    /// step may be one that can't be undone. Returns how many steps it made. The other records
    /// stay.
    pub fn steps_recorded_until<U: Until>(&mut self, records: &mut [Record], until: &U) -> usize {
        self.run_loop(records.len() as u64, records, until) as usize
    }

    /// Undoes a step: writes back what it changed, and sets pc to its address. From the state after
    /// the step this restores the whole state before it. The record of no step changes nothing, nor
    /// does that of a step that started a DMA.
    pub fn undo(&mut self, saved: &Record) {
        match saved.footprint {
            Footprint::ProgramCounters => (),
            Footprint::Register(n) => self.regs.set(n as u8, saved.word),
            Footprint::Bytes(a) => self.dmem.set_bytes(a, &saved.bytes),
            Footprint::Vector(n) => self.vregs.set_reg(n as u8, saved.vector),
            Footprint::Group(n) => self.put_group(n as u8, &saved.vectors),
            Footprint::Product(n) => {
                self.vregs.set_reg(n as u8, saved.vector);
                self.acc.replace(&saved.accumulators);
            }
            Footprint::Low(n) => self.put_low(saved, n),
            Footprint::Sum(n) => {
                self.put_low(saved, n);
                self.flags.copy_vco(&saved.flags);
            }
            Footprint::Choice(n) => {
                self.put_low(saved, n);
                self.flags.copy_vco(&saved.flags);
                self.flags.copy_vcc(&saved.flags);
            }
            Footprint::Clip(n) => {
                self.put_low(saved, n);
                self.flags = saved.flags;
            }
            Footprint::Divide(n) => {
                self.put_low(saved, n);
                self.divider = saved.divider;
            }
            Footprint::Flags => self.flags = saved.flags,
            Footprint::Sp(n) => {
                self.regs.set(n as u8, saved.word);
                self.sp = saved.sp;
            }
            Footprint::Dma => return,
        }
        self.sp.resume();
        self.npc = self.pc;
        self.pc = saved.pc;
    }

    /// Writes back vector register `n` and the low accumulators.
    fn put_low(&mut self, saved: &Record, n: u32) {
        self.vregs.set_reg(n as u8, saved.vector);
        self.acc.set_low(&saved.accumulators.low());
    }

    /// Writes eight vector registers, from `n` on.
    fn put_group(&mut self, n: u8, vectors: &[VReg; 8]) {
        self.vregs.set_reg(n, vectors[0]);
        self.vregs.set_reg(n + 1, vectors[1]);
        self.vregs.set_reg(n + 2, vectors[2]);
        self.vregs.set_reg(n + 3, vectors[3]);
        self.vregs.set_reg(n + 4, vectors[4]);
        self.vregs.set_reg(n + 5, vectors[5]);
        self.vregs.set_reg(n + 6, vectors[6]);
        self.vregs.set_reg(n + 7, vectors[7]);
    }
}
