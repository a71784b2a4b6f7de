//! The wrong uses of `first_difference`, which are the same in all languages.

use rsp::{first_difference, Bank, Emulator, Machine, State};

#[derive(Clone, Copy, PartialEq)]
enum Wrong {
    Nothing,
    Set,
    Load,
    Get,
    Memory,
    Run,
}

struct Faulty(Machine, Wrong);

impl Emulator for Faulty {
    fn run(&mut self, steps: u32) {
        (0..steps).filter(|_| self.1 != Wrong::Run).for_each(|_| assert!(self.0.step().is_ok()));
    }

    fn get(&self) -> State {
        let mut state = self.0.get().unwrap();
        if self.1 == Wrong::Get {
            (state.words[0], state.pc, state.interrupt) = (7, 3, 7);
        }
        state
    }

    fn set(&mut self, state: &State) {
        assert!(self.1 == Wrong::Set || self.0.set(state).is_ok());
    }

    fn memory(&self, bank: Bank, address: u32, bytes: &mut [u8]) {
        assert!(self.1 == Wrong::Memory || self.0.memory(bank, address, bytes).is_ok());
    }

    fn load(&mut self, bank: Bank, address: u32, bytes: &[u8]) {
        assert!(self.1 == Wrong::Load || self.0.load(bank, address, bytes).is_ok());
    }
}

const WORDS: [u32; 3] = [0x2401_0001, 0x2402_0002, 13];

/// A use in the table: its name, the words of the machine, what is wrong with the emulator, and `every`.
const USES: [(&str, [u32; 3], Wrong, u32); 9] = [
    ("every is 0", WORDS, Wrong::Nothing, 0),
    ("every is 1000001", WORDS, Wrong::Nothing, 1_000_001),
    ("a halted machine", [13; 3], Wrong::Nothing, 4),
    ("a reserved word", [0xffff_fffe, 0, 0], Wrong::Nothing, 4),
    ("set does nothing", WORDS, Wrong::Set, 4),
    ("load does nothing", WORDS, Wrong::Load, 4),
    ("get gives what no machine can have", WORDS, Wrong::Get, 4),
    ("memory gives zeros", WORDS, Wrong::Memory, 4),
    ("run does nothing", WORDS, Wrong::Run, 4),
];

fn outcome((_, words, wrong, every): &(&str, [u32; 3], Wrong, u32)) -> String {
    let image: Vec<u8> = (0..64).collect();
    let mut machine = Machine::new(&image, 0).unwrap();
    machine.load_words(Bank::Imem, 0, words).unwrap();
    machine.set_reg(5, 1).unwrap();
    let mut emulator = Faulty(Machine::new(&[0; 64], 0).unwrap(), *wrong);
    match first_difference(&mut machine, &mut emulator, *every, 10) {
        Ok(None) => "none".to_string(),
        Ok(Some(found)) => format!("step {}", found.step),
        Err(error) => format!("{:?}", error.status()),
    }
}

/// RSP_WRONG_USES names the table; without it there is nothing to do. A machine that is gone can't be used in Rust.
#[test]
fn wrong_uses() {
    let path = match std::env::var_os("RSP_WRONG_USES") {
        Some(path) => path,
        None => return,
    };
    let table = std::fs::read_to_string(path).unwrap();
    let expected: Vec<_> = table.lines().skip(1).filter(|it| !it.starts_with("no machine\t")).collect();
    let found = USES.iter().map(|it| format!("{}\t{}", it.0, outcome(it).replace("OutOfRange", "OUT_OF_RANGE")));
    assert_eq!(found.collect::<Vec<_>>(), expected);
}
