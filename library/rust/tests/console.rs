//! A console that owns RDRAM, beside a machine that has all inside: random programs, DMAs of the CPU, savestates.

use rsp::{assemble, Bank, Console, Machine, RspError, State, Status};

const RDRAM: usize = 1 << 16;

/// Numbers of 32 bits, the same in each run (xorshift).
struct Random(u64);

impl Random {
    fn word(&mut self) -> u32 {
        for shift in [-13, 7, -17] {
            self.0 ^= if shift < 0 { self.0 << -shift } else { self.0 >> shift };
        }
        (self.0 >> 16) as u32
    }

    fn below(&mut self, limit: u32) -> u32 {
        self.word() % limit
    }

    /// A word that moves an SP register, makes a number, stores or loads, branches, or is any.
    fn instruction(&mut self) -> u32 {
        let (random, register) = (self.word(), self.below(8) << 16);
        match self.below(8) {
            0 | 1 => 0x4080_0000 | register | (random & 0x7800),
            2 => 0x4000_0000 | register | (random & 0x7800),
            3 => 0x3c00_0000 | register | (random & 0xffff),
            4 => 0x3400_0000 | register | (random & 0x00e0_ffff),
            5 => 0xac00_0000 | register | (random & 0xffff),
            6 => 0x1400_0000 | register | (random & 0x00e0_0007),
            _ => 0x2400_0000 | (random & 0x00ff_ffff),
        }
    }

    fn state(&mut self) -> State {
        let mut state = State::default();
        state.words[1..].fill_with(|| self.word());
        state
    }
}

/// A console and a machine with the same registers and memories.
struct Sides {
    console: Console,
    inside: Machine,
    rdram: Vec<u8>,
}

impl Sides {
    fn new(random: &mut Random) -> Result<Sides, RspError> {
        let rdram: Vec<u8> = (0..RDRAM).map(|_| random.word() as u8).collect();
        let words: Vec<u32> = (0..1024).map(|_| random.instruction()).collect();
        let mut sides = Sides { console: Console::new()?, inside: Machine::new(&rdram, 0)?, rdram };
        let state = random.state();
        for machine in [&mut sides.console.machine, &mut sides.inside] {
            machine.load_words(Bank::Imem, 0, &words)?;
            machine.set(&state)?;
        }
        Ok(sides)
    }

    fn write(&mut self, number: u32, value: u32) -> Result<(), RspError> {
        self.console.write(&mut self.rdram, number, value)?;
        self.inside.write(number, value)
    }

    fn assert_same(&self) -> Result<(), RspError> {
        let (mut mine, theirs) = (self.console.machine.get()?, self.inside.get()?);
        mine.sp[8..].copy_from_slice(&self.console.dpc);
        assert!(mine == theirs, "{mine:?} {theirs:?}");
        for bank in [Bank::Dmem, Bank::Imem] {
            let mut both = [[0; 4096]; 2];
            self.console.machine.memory(bank, 0, &mut both[0])?;
            self.inside.memory(bank, 0, &mut both[1])?;
            assert!(both[0] == both[1]);
        }
        let mut theirs = vec![0; RDRAM];
        self.inside.memory(Bank::Rdram, 0, &mut theirs)?;
        assert!(self.rdram == theirs);
        Ok(())
    }

    /// Runs both for as many steps, after which a console that made fewer is halted, at a reserved word, or has an interrupt.
    fn run(&mut self, budget: u32) -> Result<u32, RspError> {
        let steps = self.console.run(&mut self.rdram, budget)?;
        if steps > 0 {
            assert_eq!(self.inside.run(steps)?.steps, steps);
        }
        if steps < budget && !self.console.interrupt()? {
            assert_eq!(self.inside.run(1)?.steps, 0);
        }
        self.assert_same()?;
        Ok(steps)
    }
}

#[test]
fn random_programs() -> Result<(), RspError> {
    let (mut random, mut steps) = (Random(0x9e37_79b9_7f4a_7c15), 0);
    for _ in 0..60 {
        let mut sides = Sides::new(&mut random)?;
        for _ in 0..6 {
            for _ in 0..random.below(4) {
                let (number, high) = (random.below(16), random.below(2));
                sides.write(number, random.word() | high << 20)?;
                let number = random.below(16);
                assert_eq!(sides.console.read(number)?, sides.inside.read(number)?);
            }
            sides.write(4, 0x25)?; // neither halted nor broke, and no single step
            let budget = random.below(60);
            steps += sides.run(budget)?;
        }
    }
    assert!(steps > 2000, "{steps} steps");
    Ok(())
}

#[test]
fn microcode_that_the_cpu_loads() -> Result<(), RspError> {
    let text = "lqv $v1[0], 0($0)\nvaddc $v1, $v1, $v1\nsqv $v1[0], 0($0)\nmtc0 $0, $c0\nori $1, $0, 0x2000\nmtc0 $1, $c1\n\
        ori $2, $0, 15\nmtc0 $2, $c3\nbreak\n";
    let (mut console, mut rdram) = (Console::new()?, vec![0; RDRAM]);
    let words = assemble(text, 0)?;
    for (at, word) in rdram[0x1000..].chunks_exact_mut(4).zip(words) {
        at.copy_from_slice(&word.to_be_bytes());
    }
    rdram[0x2000..0x2010].copy_from_slice(&[0, 1, 0, 2, 0, 3, 0, 4, 0, 5, 0, 6, 0, 7, 0, 8]);
    for (number, value) in [(0, 0x1000), (1, 0x1000), (2, 4095), (0, 0), (1, 0x2000), (2, 15)] {
        console.write(&mut rdram, number, value)?;
    }
    console.machine.set_pc(0)?;
    console.write(&mut rdram, 4, 0x105)?;
    assert_eq!((console.run(&mut rdram, 1000)?, console.interrupt()?), (9, true));
    assert_eq!(rdram[0x2000..0x2010], [0, 2, 0, 4, 0, 6, 0, 8, 0, 10, 0, 12, 0, 14, 0, 16]);
    Ok(())
}

#[test]
fn a_run_ends_after_an_interrupt() -> Result<(), RspError> {
    let (mut console, mut rdram) = (Console::new()?, vec![0; RDRAM]);
    console.machine.load_words(Bank::Imem, 0, &assemble("ori $1, $0, 0x10\nmtc0 $1, $c4\nnop\nbreak\n", 0)?)?;
    assert_eq!((console.run(&mut rdram, 100)?, console.interrupt()?), (2, true));
    assert_eq!(console.run(&mut rdram, 100)?, 2);
    Ok(())
}

#[test]
fn a_restored_console_is_the_saved_one() -> Result<(), RspError> {
    let mut sides = Sides::new(&mut Random(7))?;
    sides.write(9, 0x1234_5678)?;
    let saved = sides.console.save(&sides.rdram)?;
    let (mut other, mut rdram) = (Console::new()?, vec![1; RDRAM]);
    for wrong in [&saved[..saved.len() - 1], &saved[..100], &[]] {
        assert_eq!(other.restore(&mut rdram, wrong).unwrap_err().status(), Status::OutOfRange);
        assert!(rdram == vec![1; RDRAM] && other.dpc == [0; 8]);
    }
    other.restore(&mut rdram, &saved)?;
    assert!(other.save(&rdram)? == saved && rdram == sides.rdram && other.dpc[1] == 0x1234_5678);
    Ok(())
}
