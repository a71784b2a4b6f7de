//! The first difference between a machine and a second one with a planted fault.

use rsp::{assemble, first_difference, Bank, Emulator, Machine, RspError, State, Status, StepEnd};
use std::panic::{catch_unwind, AssertUnwindSafe};

/// Why a call was refused.
fn why<T>(result: Result<T, RspError>) -> Option<Status> {
    result.err().map(|it| it.status())
}

/// A DMA of 8 bytes into DMEM and one back, then a loop of 40 turns; at its head $2 is 40, 39, ..
const PROGRAM: &str = "
      ori $1, $0, 7
      mtc0 $0, $c0
      mtc0 $0, $c1
      mtc0 $1, $c2
      ori $2, $0, 40
      lqv $v1[0], 0($0)
      sw $1, 0($0)
      mtc0 $0, $c0
      mtc0 $1, $c3
loop: vadd $v2, $v2, $v1
      addiu $2, $2, -1
      bne $2, $0, loop
      sqv $v2[0], 32($0)
      break
";
const HEAD: u32 = 9;
const IMAGE: [u8; 64] = [5; 64];

/// A machine that spoils something after the instruction at an address while $2 has a value.
struct Faulty {
    machine: Machine,
    place: u16,
    turn: u32,
    spoil: fn(&mut Machine),
}

impl Emulator for Faulty {
    fn run(&mut self, steps: u32) {
        for _ in 0..steps {
            let regs = self.machine.regs().unwrap();
            self.machine.step().unwrap();
            if (regs.pc, regs.words[2]) == (self.place, self.turn) {
                (self.spoil)(&mut self.machine);
            }
        }
    }

    fn get(&self) -> State {
        self.machine.get().unwrap()
    }

    fn set(&mut self, state: &State) {
        self.machine.set(state).unwrap();
    }

    fn memory(&self, bank: Bank, address: u32, bytes: &mut [u8]) {
        self.machine.memory(bank, address, bytes).unwrap();
    }

    fn load(&mut self, bank: Bank, address: u32, bytes: &[u8]) {
        assert!(address == 0 && bytes.len() == if bank == Bank::Rdram { 64 } else { 4096 }, "{bank}");
        self.machine.load(bank, address, bytes).unwrap();
    }
}

fn lane(machine: &mut Machine) {
    let mut state = machine.get().unwrap();
    state.vectors[2][5] ^= 1;
    machine.set(&state).unwrap();
}

fn byte(machine: &mut Machine) {
    machine.load(Bank::Dmem, 0x3f7, &[0x80]).unwrap();
}

fn byte_of_imem(machine: &mut Machine) {
    machine.load(Bank::Imem, 0x804, &[0x80]).unwrap();
}

fn byte_of_rdram(machine: &mut Machine) {
    machine.load(Bank::Rdram, 0xb, &[0x85]).unwrap();
}

fn byte_where_no_dma_wrote(machine: &mut Machine) {
    machine.load(Bank::Rdram, 0x13, &[0x85]).unwrap();
}

fn pair(place: u16, turn: u32, spoil: fn(&mut Machine)) -> (Machine, Faulty) {
    let mut machine = Machine::new(&IMAGE, 0).unwrap();
    machine.load_words(Bank::Imem, 0, &assemble(PROGRAM, 0).unwrap()).unwrap();
    (machine, Faulty { machine: Machine::new(&IMAGE, 0).unwrap(), place, turn, spoil })
}

/// The state after so many steps of the machine alone.
fn alone(steps: u32) -> State {
    let (mut machine, _) = pair(0, 99, lane);
    (0..steps).for_each(|_| assert_eq!(machine.step(), Ok(StepEnd::Done)));
    machine.get().unwrap()
}

#[test]
fn a_fault_is_found_at_its_step() {
    let step = HEAD + 4 * (40 - 17) + 1;
    for every in [1, 2, 7, 64, 10000] {
        let (mut machine, mut emulator) = pair(36, 17, lane);
        let found = first_difference(&mut machine, &mut emulator, every, 1000).unwrap().unwrap();
        assert_eq!((found.step, found.line.address, found.line.text.as_str()), (step, 36, "vadd $v2, $v2, $v1"));
        assert_eq!((found.before, machine.get().unwrap()), (alone(step - 1), alone(step)));
        assert_eq!((found.registers.len(), found.registers[0].place.to_string()), (1, "$v2 lane 5".to_string()));
        let (mut machine, mut emulator) = pair(40, 17, byte);
        let found = first_difference(&mut machine, &mut emulator, every, 1000).unwrap().unwrap();
        let sentence = "DMEM 3f0 is 00000000000000000000000000000000 on the machine and 00000000000000800000000000000000 in the emulator";
        assert_eq!(found.to_string(), format!("step {}, 028: addiu $2, $2, -1\n  {sentence}", step + 1));
        let (mut machine, mut emulator) = pair(40, 17, byte_of_imem);
        let found = first_difference(&mut machine, &mut emulator, every, 1000).unwrap().unwrap();
        assert_eq!((found.step, found.memories.len(), found.memories[0].bank), (step + 1, 1, Bank::Imem));
    }
}

#[test]
fn a_dma_is_compared_in_rdram() {
    let (mut machine, mut emulator) = pair(32, 40, byte_of_rdram);
    let found = first_difference(&mut machine, &mut emulator, 64, 1000).unwrap().unwrap();
    assert_eq!((found.step, found.steps, found.line.text.as_str(), found.registers.len()), (9, 1, "mtc0 $1, $c3", 0));
    assert_eq!((found.memories.len(), found.memories[0].bank, found.memories[0].address), (1, Bank::Rdram, 0));
}

#[test]
fn rdram_is_compared_at_the_end() {
    let (mut machine, mut emulator) = pair(32, 40, byte_where_no_dma_wrote);
    let found = first_difference(&mut machine, &mut emulator, 64, 1000).unwrap().unwrap();
    let last = HEAD + 4 * 40 + 1;
    assert_eq!((found.step, found.steps, found.line.address, found.before), (last, last, 0, alone(0)));
    assert_eq!((found.memories.len(), found.memories[0].bank, found.memories[0].address), (1, Bank::Rdram, 16));
    let head = format!("steps 1 to {last}, from 000 on: RDRAM differs where no DMA wrote: repeat with a smaller limit\n");
    assert!(found.to_string().starts_with(&head), "{found}");
}

/// One whose `get` or `run` isn't right from a step on.
struct Wrong {
    inner: Faulty,
    steps: u32,
    lies: bool,
}

const FROM: u32 = 50;

impl Emulator for Wrong {
    fn run(&mut self, steps: u32) {
        self.steps += steps;
        self.inner.run(if !self.lies && self.steps == FROM { steps - 1 } else { steps });
    }

    fn get(&self) -> State {
        let mut state = self.inner.get();
        state.words[9] += u32::from(self.lies && (1..30).contains(&state.words[2]));
        state
    }

    fn set(&mut self, state: &State) {
        self.inner.set(state);
    }

    fn memory(&self, bank: Bank, address: u32, bytes: &mut [u8]) {
        self.inner.memory(bank, address, bytes);
    }

    fn load(&mut self, bank: Bank, address: u32, bytes: &[u8]) {
        self.inner.load(bank, address, bytes);
    }
}

/// $2 is 29 after this step, and not 1 to 29 in any state before it.
#[test]
fn a_wrong_get_is_found_at_its_step() {
    for every in [1, 7, 64] {
        let (mut machine, inner) = pair(0, 99, lane);
        let found = first_difference(&mut machine, &mut Wrong { inner, steps: 0, lies: true }, every, 1000).unwrap().unwrap();
        assert_eq!((found.step, found.steps, found.registers[0].place.to_string()), (HEAD + 4 * 10 + 2, 1, "$9".to_string()));
    }
}

#[test]
fn a_step_that_isnt_made_is_found() {
    let (mut machine, inner) = pair(0, 99, lane);
    let found = first_difference(&mut machine, &mut Wrong { inner, steps: 0, lies: false }, 1, 1000).unwrap().unwrap();
    assert_eq!((found.step, found.before), (FROM, alone(FROM - 1)));
}

#[test]
fn none() {
    let (mut machine, mut emulator) = pair(0, 99, lane);
    assert_eq!(first_difference(&mut machine, &mut emulator, 64, u32::MAX), Ok(None));
    assert_eq!((machine.step(), machine.get().unwrap()), (Ok(StepEnd::Halted), alone(HEAD + 4 * 40 + 1)));
    for limit in [0, 20, 21] {
        let (mut machine, mut emulator) = pair(36, 17, lane);
        assert_eq!(first_difference(&mut machine, &mut emulator, 8, limit), Ok(None));
        assert_eq!(machine.get().unwrap(), alone(limit));
    }
    for every in [0, 1_000_001] {
        assert_eq!(why(first_difference(&mut machine, &mut emulator, every, 9)), Some(Status::OutOfRange));
    }
}

/// An emulator that does nothing.
struct Empty;

impl Emulator for Empty {
    fn run(&mut self, _: u32) {}

    fn get(&self) -> State {
        Machine::new(&IMAGE, 0).unwrap().get().unwrap()
    }

    fn set(&mut self, _: &State) {}

    fn memory(&self, _: Bank, _: u32, _: &mut [u8]) {}

    fn load(&mut self, _: Bank, _: u32, _: &[u8]) {}
}

#[test]
fn an_emulator_that_keeps_nothing_differs_before_the_first_step() {
    let (mut machine, _) = pair(0, 99, lane);
    let found = first_difference(&mut machine, &mut Empty, 64, 1000).unwrap().unwrap();
    assert_eq!((found.step, found.registers.len(), found.memories[0].bank), (0, 0, Bank::Imem));
}

/// One that panics in a method.
struct Panics {
    inner: Faulty,
    method: &'static str,
}

impl Panics {
    fn enter(&self, method: &'static str) {
        if method == self.method {
            std::panic::panic_any(method);
        }
    }
}

impl Emulator for Panics {
    fn run(&mut self, steps: u32) {
        self.enter("run");
        self.inner.run(steps);
    }

    fn get(&self) -> State {
        self.enter("get");
        self.inner.get()
    }

    fn set(&mut self, state: &State) {
        self.enter("set");
        self.inner.set(state);
    }

    fn memory(&self, bank: Bank, address: u32, bytes: &mut [u8]) {
        self.enter("memory");
        self.inner.memory(bank, address, bytes);
    }

    fn load(&mut self, bank: Bank, address: u32, bytes: &[u8]) {
        self.enter("load");
        self.inner.load(bank, address, bytes);
    }
}

#[test]
fn a_panic_of_an_emulator_leaves_the_machine_whole() {
    for method in ["run", "get", "set", "memory", "load"] {
        let (mut machine, inner) = pair(0, 99, lane);
        let ended = catch_unwind(AssertUnwindSafe(|| first_difference(&mut machine, &mut Panics { inner, method }, 1, 9)));
        assert_eq!(ended.unwrap_err().downcast_ref(), Some(&method));
        assert_eq!(machine.get().unwrap(), alone(u32::from(method == "run")));
        assert_eq!(machine.run(9).unwrap().steps, 9);
    }
}

/// One that spoils a lane only in runs of several steps.
struct Whole(Faulty);

impl Emulator for Whole {
    fn run(&mut self, steps: u32) {
        self.0.run(steps);
        if steps > 1 {
            lane(&mut self.0.machine);
        }
    }

    fn get(&self) -> State {
        self.0.get()
    }

    fn set(&mut self, state: &State) {
        self.0.set(state);
    }

    fn memory(&self, bank: Bank, address: u32, bytes: &mut [u8]) {
        self.0.memory(bank, address, bytes);
    }

    fn load(&mut self, bank: Bank, address: u32, bytes: &[u8]) {
        self.0.load(bank, address, bytes);
    }
}

#[test]
fn a_stretch_is_named_if_single_steps_dont_show_it() {
    let (mut machine, emulator) = pair(0, 99, lane);
    let found = first_difference(&mut machine, &mut Whole(emulator), 3, 1000).unwrap().unwrap();
    assert_eq!((found.step, found.steps, found.line.address, found.before), (3, 3, 0, alone(0)));
    let head = "steps 1 to 3, from 000 on: no step alone differs, so get and set leave something out: repeat with every = 1\n";
    assert!(found.to_string().starts_with(head), "{found}");
}
