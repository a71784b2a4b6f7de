//! Refused calls, which have the same sentences in all languages. RSP_REFUSALS names the table; without it there is nothing to do.

use rsp::{assemble, explain_text, first_difference, text, Bank, Emulator, Machine, RspError, Session, SpWords, State};

/// A machine and a session, of which a row of the table makes calls.
struct Sides {
    machine: Machine,
    session: Session,
}

/// A machine as an emulator, which no row reaches.
struct Other(Machine);

impl Emulator for Other {
    fn run(&mut self, steps: u32) {
        assert!(self.0.run(steps).is_ok());
    }

    fn get(&self) -> State {
        self.0.get().unwrap()
    }

    fn set(&mut self, state: &State) {
        self.0.set(state).unwrap();
    }

    fn memory(&self, bank: Bank, address: u32, bytes: &mut [u8]) {
        self.0.memory(bank, address, bytes).unwrap();
    }

    fn load(&mut self, bank: Bank, address: u32, bytes: &[u8]) {
        self.0.load(bank, address, bytes).unwrap();
    }
}

fn nothing<T>(result: Result<T, RspError>) -> Result<(), RspError> {
    result.map(|_| ())
}

impl Sides {
    fn new() -> Result<Sides, RspError> {
        let (mut machine, session) = (Machine::new(&[0; 64], 4)?, Session::new(&[0; 64])?);
        machine.load_words(Bank::Imem, 0, &assemble("mfc0 $1, $c0", 0)?)?;
        Ok(Sides { machine, session })
    }

    /// Sets a field of the state, by its number in `brsp.h`.
    fn set(&mut self, field: u32, value: u32) -> Result<(), RspError> {
        let mut state = self.machine.get()?;
        match field {
            1 => state.words[0] = value,
            2 => state.divider.loaded = value as u16,
            3 => state.pc = value as u16,
            4 => state.npc = value as u16,
            5 => state.interrupt = value,
            more => state.sp[more as usize - 16] = value,
        }
        self.machine.set(&state)
    }

    /// Loads the machine's own savestate with another byte, and of another length.
    fn load_state(&mut self, at: usize, byte: u8, length: usize) -> Result<(), RspError> {
        let mut saved = self.machine.save_state()?;
        saved.resize(9216, 0);
        saved[at] = byte;
        self.machine.load_state(&saved[..length])
    }

    /// A call on the machine whose numbers are words.
    fn call_machine(&mut self, name: &str, given: &[u32]) -> Result<(), RspError> {
        let machine = &mut self.machine;
        match (name, given) {
            ("set_pc", [pc]) => machine.set_pc(*pc),
            ("run", [steps]) => nothing(machine.run(*steps)),
            ("trace", [steps]) => nothing(machine.trace(&mut vec![Default::default(); *steps as usize])),
            ("back", [states]) => machine.back(*states),
            ("add_break", [address]) => machine.add_break(*address),
            ("drop_break", [address]) => machine.drop_break(*address),
            ("add_watch", [address, length]) => nothing(machine.add_watch(*address, *length)),
            ("drop_watch", [number]) => machine.drop_watch(*number),
            ("reg", [number]) => nothing(machine.reg(*number)),
            ("vreg", [number]) => nothing(machine.vreg(*number)),
            ("set_reg", [number, value]) => machine.set_reg(*number, *value),
            ("start_task", [address]) => machine.start_task(*address),
            ("pass_move", [value]) => nothing(machine.pass_move(*value)),
            ("pass_dma", []) => nothing(machine.pass_dma()),
            ("listing", [address, count]) => nothing(machine.listing(*address, *count as usize)),
            ("set_sp", [interrupt]) => machine.set_sp(&SpWords { interrupt: *interrupt, ..machine.sp()? }),
            _ => panic!("{name} {given:?}"),
        }
    }

    /// A call of a row.
    fn call(&mut self, name: &str, given: &[u32]) -> Result<(), RspError> {
        let bank = given.first().map_or(Bank::Dmem, |it| Bank::try_from(*it).unwrap_or(Bank::Dmem));
        let sizes: Vec<usize> = given.iter().map(|it| *it as usize).collect();
        match (name, given) {
            ("memory", [_, address, _]) => self.machine.memory(bank, *address, &mut vec![0; sizes[2]]),
            ("memory_words", [_, address, _]) => self.machine.memory_words(bank, *address, &mut vec![0; sizes[2]]),
            ("load", [_, address, _]) => self.machine.load(bank, *address, &vec![0; sizes[2]]),
            ("load_words", [_, address, _]) => self.machine.load_words(bank, *address, &vec![0; sizes[2]]),
            ("set", [field, value]) => self.set(*field, *value),
            ("load_state", [_, byte, _]) => self.load_state(sizes[0], *byte as u8, sizes[2]),
            ("Machine", [_, depth]) => nothing(Machine::new(&vec![0; sizes[0]], *depth)),
            ("Session", [_]) => nothing(Session::new(&vec![0; sizes[0]])),
            ("text", [word, address]) => nothing(text(*word, *address)),
            ("assemble", [origin]) => nothing(assemble("nop", *origin)),
            ("explain_text", [origin]) => nothing(explain_text("nop", *origin)),
            ("first_difference", [every, limit]) => {
                let mut other = Other(self.machine.copy()?);
                nothing(first_difference(&mut self.machine, &mut other, *every, *limit))
            }
            ("feed", []) => nothing(self.session.feed("step\n")),
            ("end", []) => nothing(self.session.end()),
            _ => self.call_machine(name, given),
        }
    }
}

/// The refusal of a row's last call. All calls before it are taken.
fn refused(row: &str) -> RspError {
    let mut sides = Sides::new().unwrap();
    let calls: Vec<Vec<&str>> = row.split("; ").map(|it| it.split(' ').collect()).collect();
    let mut ended: Vec<_> =
        calls.iter().map(|call| sides.call(call[0], &call[1..].iter().map(|it| it.parse().unwrap()).collect::<Vec<u32>>())).collect();
    let last = ended.pop().unwrap().unwrap_err();
    assert!(ended.iter().all(Result::is_ok), "{row}");
    last
}

#[test]
fn refusals() {
    let path = match std::env::var_os("RSP_REFUSALS") {
        Some(path) => path,
        None => return,
    };
    let table = std::fs::read_to_string(path).unwrap();
    for line in table.lines().skip(1) {
        let cells: Vec<_> = line.split('\t').collect();
        if cells[3].split(' ').any(|it| it == "Rust") {
            continue;
        }
        let found = refused(cells[0]);
        let status = format!("{:?}", found.status()).to_uppercase();
        assert_eq!((status, found.to_string()), (cells[1].replace('_', ""), cells[2].to_string()), "{}", cells[0]);
    }
}
