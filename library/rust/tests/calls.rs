//! The calls in their ranges and out of them.

use rsp::{
    assemble, text, version, Bank, Changes, Field, Machine, MoveEnd, Reason, RspError, Session, State, Status, StepEnd, Stop, Traced,
};
use std::thread;

/// Why a call was refused.
fn why<T>(result: Result<T, RspError>) -> Option<Status> {
    result.err().map(|it| it.status())
}

fn loaded(source: &str, depth: u32) -> Machine {
    let mut machine = Machine::new(&[0; 4096], depth).unwrap();
    machine.load_words(Bank::Imem, 0, &assemble(source, 0).unwrap()).unwrap();
    machine
}

#[test]
fn a_life() {
    assert_eq!(version(), 1);
    for length in [0, 63, 65, 68] {
        assert_eq!(why(Machine::new(&vec![0; length], 0)), Some(Status::OutOfRange));
    }
    assert_eq!(why(Machine::new(&[0; 64], 4097)), Some(Status::OutOfRange));
    for _ in 0..100 {
        Machine::new(&vec![0; 1 << 20], 4096).unwrap();
    }
}

#[test]
fn copies() {
    let mut machine = loaded("addiu $1, $1, 1\naddiu $1, $1, 1\naddiu $1, $1, 1\nbreak\n", 2);
    machine.load(Bank::Rdram, 4088, b"RDRAMend").unwrap();
    machine.step().unwrap();
    machine.add_break(8).unwrap();
    let mut other = machine.copy().unwrap();
    assert_eq!(other.get(), machine.get());
    let mut bytes = [0; 8];
    other.memory(Bank::Rdram, 4088, &mut bytes).unwrap();
    assert_eq!(&bytes, b"RDRAMend");
    assert_eq!(why(other.back(1)), Some(Status::ShortHistory));
    assert_eq!(why(other.drop_break(8)), Some(Status::NoBreak));
    assert_eq!(other.run(9).unwrap().reason, Reason::Halt);
    assert_eq!((other.reg(1), machine.reg(1)), (Ok(3), Ok(1)));
    assert_eq!(why(other.back(3)), Some(Status::ShortHistory));
    assert_eq!(other.back(2), Ok(()));
    drop(machine);
    assert_eq!(other.reg(1), Ok(2));
}

#[test]
fn a_machine_in_three_threads() {
    let made = thread::spawn(|| loaded("loop: addiu $1, $1, 1\nbne $1, $2, loop\nnop\n", 9)).join().unwrap();
    let run = thread::spawn(move || {
        let mut machine = made;
        machine.run(300).unwrap();
        machine
    });
    let machine = run.join().unwrap();
    assert_eq!(thread::spawn(move || machine.reg(1)).join().unwrap(), Ok(100));
}

/// A function that is ambiguous, and so not compiled, of a type that is `Sync`.
trait IsNotSync<Kind> {
    fn is_not_sync() {}
}

impl<T> IsNotSync<()> for T {}

impl<T: Sync> IsNotSync<u8> for T {}

#[test]
fn one_thread_at_a_time() {
    fn is_send<T: Send>() {}
    is_send::<Machine>();
    is_send::<Session>();
    <Machine as IsNotSync<_>>::is_not_sync();
    <Session as IsNotSync<_>>::is_not_sync();
}

#[test]
fn passes_and_sp_registers() {
    let mut machine = loaded("mfc0 $3, $c7\nmtc0 $3, $c2\nnop\n", 0);
    assert_eq!(machine.pass_move(0xfedc_ba98), Ok(StepEnd::Done));
    assert_eq!((machine.reg(3), machine.peek(7)), (Ok(0xfedc_ba98), Ok(0)));
    assert_eq!(machine.pass_move(0), Ok(StepEnd::Done));
    assert_eq!((machine.reg(3), machine.peek(2), machine.regs().unwrap().pc), (Ok(0xfedc_ba98), Ok(0xff8), 8));
    assert_eq!(why(machine.pass_move(0)), Some(Status::OtherWord));
    machine.write(4, 2).unwrap();
    assert_eq!(machine.pass_move(0), Ok(StepEnd::Halted));
    let mut given = machine.sp().unwrap();
    assert_eq!((given.words[4], given.words[2], given.interrupt), (1, 0xff8, 0));
    (given.words[0], given.words[4], given.words[7], given.words[15], given.interrupt) = (0x1ff8, 0x50e2, 1, 5, 1);
    machine.set_sp(&given).unwrap();
    assert_eq!(machine.sp(), Ok(given));
    for (n, word) in [4, 1, 0, 0, 4, 1, 1, 2].into_iter().enumerate() {
        let mut bad = given;
        bad.words[n] = word;
        assert_eq!(why(machine.set_sp(&bad)), Some(Status::OutOfRange));
    }
    assert_eq!(machine.sp(), Ok(given));
}

#[test]
fn moves() {
    let mut machine = loaded("ori $4, $0, 0x1238\nmfc0 $3, $c7\nmtc0 $4, $c2\nbreak\n", 4);
    assert_eq!(why(machine.run_until_move(0, 0, 0)), Some(Status::OutOfRange));
    assert_eq!(why(machine.run_until_move(1_000_001, 0, 0)), Some(Status::OutOfRange));
    let read = MoveEnd::Move { steps: 1, pc: 4, word: 0x4003_3800, number: 7, writes: false, value: 0 };
    assert_eq!(machine.run_until_move(100, 1 << 7, 1 << 2), Ok(read));
    assert_eq!(machine.pass_move(5), Ok(StepEnd::Done));
    let write = MoveEnd::Move { steps: 0, pc: 8, word: 0x4084_1000, number: 2, writes: true, value: 0x1238 };
    assert_eq!(machine.run_until_move(100, 0, 0xffff), Ok(write));
    let halt = MoveEnd::Stop(Stop { reason: Reason::Halt, steps: 2, pc: 16, word: None });
    assert_eq!((machine.run_until_move(100, 0xffff, 0), machine.reg(3)), (Ok(halt), Ok(5)));
}

#[test]
fn traces() {
    let mut machine = loaded("ori $1, $0, 0x8001\nsw $1, 0x1044($0)\nmtc2 $1, $v1[2]\nvaddc $v2, $v1, $v1\nbreak\n", 4);
    assert_eq!(why(machine.trace(&mut [])), Some(Status::OutOfRange));
    let mut entries = [Traced { stored: 9, ..Traced::default() }; 6];
    assert_eq!(machine.trace(&mut entries), Ok(Stop { reason: Reason::Halt, steps: 5, pc: 20, word: None }));
    let scalar = Traced { word: 0x3401_8001, scalar: 1, value: 0x8001, vector: 32, ..Traced::default() };
    assert_eq!(entries[0], scalar);
    assert_eq!((entries[1].pc, entries[1].stored, entries[1].address, entries[1].scalar), (4, 1, 0x44, 0));
    assert_eq!((entries[3].vector, entries[3].lanes[1], entries[3].vco), (2, 2, 2));
    assert_eq!(entries[5].stored, 9);
    machine.back(4).unwrap();
    assert_eq!(machine.regs().unwrap().pc, 4);
    let mut turning = loaded("loop: j loop\naddiu $1, $1, 1\n", 0);
    let last = turning.trace_iter(3000).enumerate().last().unwrap();
    assert_eq!((last.0, last.1.pc, last.1.value, turning.reg(1)), (2999, 4, 1500, Ok(1500)));
    assert_eq!(loaded("nop\nbreak\n", 0).trace_iter(10).map(|it| it.pc).collect::<Vec<_>>(), [0, 4]);
}

#[test]
fn changes() {
    let mut machine = loaded("ori $1, $0, 0x8001\nsw $1, 0x0ffd($0)\nmtc2 $1, $v1[2]\nvaddc $v2, $v1, $v1\nj 0x100\nbreak\n", 1);
    let mut out = Changes::default();
    let mut steps = Vec::new();
    for _ in 0..6 {
        assert_eq!(machine.step_changes(&mut out), Ok(StepEnd::Done));
        steps.push(out);
    }
    let entry = Traced { word: 0x3401_8001, scalar: 1, value: 0x8001, vector: 32, ..Traced::default() };
    assert_eq!(steps[0], Changes { traced: entry, pc: 4, npc: 8, ..Changes::default() });
    assert_eq!((steps[1].traced.address, steps[1].quadword, steps[1].traced.stored), (0xffd, 0xff0, 1));
    assert_eq!((&steps[1].bytes[0][13..], &steps[1].bytes[1][..2]), (&[0, 0, 0x80][..], &[1, 0][..]));
    assert_eq!((steps[3].accumulators.low[1], steps[3].traced.lanes[1], steps[3].traced.vco), (2, 2, 2));
    assert_eq!((steps[4].pc, steps[4].npc, steps[5].pc, steps[5].npc), (0x14, 0x100, 0x100, 0x104));
    assert_eq!((machine.step_changes(&mut out), out), (Ok(StepEnd::Halted), steps[5]));
    assert_eq!((machine.back(1), machine.regs().unwrap().pc), (Ok(()), 0x14));
}

#[test]
fn names() {
    assert_eq!(assemble("nop\nfoo\n", 0).unwrap_err().to_string(), "assemble: fault 11 UnknownName line 2: foo");
    assert_eq!(Reason::Watch(3).to_string(), "WATCH");
    assert_eq!(Field::Sp(3).to_string(), "sp[3]");
}

#[test]
fn runs_and_stops() {
    let mut machine = loaded("addiu $1, $0, 3\nloop: addiu $1, $1, -1\nsw $1, 64($0)\nbne $1, $0, loop\nnop\nbreak\n", 8);
    assert_eq!(machine.step(), Ok(StepEnd::Done));
    assert_eq!(why(machine.back(2)), Some(Status::ShortHistory));
    assert_eq!(why(machine.back(0)), Some(Status::OutOfRange));
    assert_eq!(machine.back(1), Ok(()));
    assert_eq!(why(machine.run(0)), Some(Status::OutOfRange));
    machine.add_break(16).unwrap();
    assert_eq!(why(machine.add_break(16)), Some(Status::BreakTwice));
    assert_eq!(why(machine.add_break(17)), Some(Status::OutOfRange));
    let stop = machine.run(100).unwrap();
    assert_eq!((stop.reason, stop.steps, stop.pc), (Reason::Break, 4, 16));
    machine.drop_break(16).unwrap();
    assert_eq!(why(machine.drop_break(16)), Some(Status::NoBreak));
    assert_eq!(machine.add_watch(64, 4), Ok(0));
    assert_eq!(why(machine.add_watch(4095, 2)), Some(Status::OutOfRange));
    assert_eq!(machine.run(100).unwrap().reason, Reason::Watch(0));
    machine.drop_watch(0).unwrap();
    assert_eq!(why(machine.drop_watch(u32::MAX)), Some(Status::NoWatch));
    assert_eq!(machine.run(100).unwrap().reason, Reason::Halt);
    assert_eq!(machine.step(), Ok(StepEnd::Halted));
    machine.write(4, 1).unwrap();
    machine.load_words(Bank::Imem, 24, &[0xffff_fffe]).unwrap();
    assert_eq!(machine.step(), Ok(StepEnd::Reserved));
    let stop = machine.run(5).unwrap();
    assert_eq!((stop.reason, stop.word), (Reason::Reserved, Some(0xffff_fffe)));
    machine.write(4, 2).unwrap();
    let stop = machine.run(5).unwrap();
    assert_eq!((stop.reason, stop.word), (Reason::Halt, None));
    machine.write(4, 1).unwrap();
    assert_eq!(why(machine.start_task(4)), Some(Status::TaskPlace));
    assert_eq!(why(machine.start_task(0)), Some(Status::TaskSize));
}

#[test]
fn states_and_memories() {
    let mut machine = loaded("nop\nbreak\n", 0);
    let mut state = State::default();
    assert_eq!(Machine::new(&[0; 64], 0).unwrap().get(), Ok(state));
    state.sp[4] = 0x8000;
    let refused = machine.set(&state).unwrap_err();
    assert_eq!((refused.status(), refused.to_string().as_str()), (Status::OutOfRange, "set: sp[4] is 0x8000, which SP_STATUS can't hold"));
    state.sp[4] = 0;
    assert_eq!(machine.set(&state), Ok(()));
    (state.words[31], state.vectors[31][7], state.accumulators.low[7], state.sp[15]) = (1, 2, 3, 4);
    machine.set(&state).unwrap();
    assert_eq!(machine.get(), Ok(state));
    assert_eq!(state.fault(), None);
    let faulty = |change: fn(&mut State)| {
        let mut bad = state;
        change(&mut bad);
        bad.fault()
    };
    assert_eq!(faulty(|bad| (bad.npc, bad.sp[3]) = (4094, 1)), Some(Field::Npc));
    assert_eq!(faulty(|bad| bad.sp[3] = 1), Some(Field::Sp(3)));
    assert_eq!(faulty(|bad| bad.words[0] = 1), Some(Field::Zero));
    assert_eq!(faulty(|bad| bad.divider.loaded = 2), Some(Field::Loaded));
    assert_eq!(machine.reg(31), Ok(1));
    assert_eq!(why(machine.reg(32)), Some(Status::OutOfRange));
    assert_eq!(machine.vreg(31).unwrap()[7], 2);
    assert_eq!(machine.acc().unwrap().low[7], 3);
    assert_eq!(machine.peek(15), Ok(4));
    assert_eq!(machine.read(31), Ok(4));
    assert_eq!(machine.regs().unwrap().npc, 4);
    assert_eq!(machine.flags().unwrap().carry, 0);
    assert_eq!(machine.divider().unwrap().loaded, 0);
    let mut bytes = [0; 3000];
    machine.load(Bank::Rdram, 1000, &[7; 3000]).unwrap();
    machine.memory(Bank::Rdram, 1001, &mut bytes).unwrap();
    assert_eq!((bytes[0], bytes[2998], bytes[2999]), (7, 7, 0));
    assert_eq!(why(machine.memory(Bank::Rdram, 1097, &mut bytes)), Some(Status::OutOfRange));
    assert_eq!(why(machine.load(Bank::Dmem, u32::MAX, &[])), Some(Status::OutOfRange));
    let mut words = [0; 2];
    machine.load_words(Bank::Dmem, 8, &[0x0102_0304, 0x0506_0708]).unwrap();
    machine.memory_words(Bank::Dmem, 9, &mut words).unwrap();
    assert_eq!(words, [0x0203_0405, 0x0607_0800]);
    assert_eq!(why(machine.memory_words(Bank::Rdram, 4089, &mut words)), Some(Status::OutOfRange));
    assert_eq!(machine.memory_words(Bank::Dmem, 4096, &mut []), Ok(()));
    assert_eq!(words, [0x0203_0405, 0x0607_0800]);
    assert_eq!(why(machine.set_pc(4096)), Some(Status::OutOfRange));
    assert_eq!(machine.set_pc(4), Ok(()));
}

#[test]
fn single_registers() {
    let mut machine = loaded("nop\nnop\n", 4);
    machine.step().unwrap();
    let mut expected = machine.get().unwrap();
    (expected.words[31], expected.vectors[31]) = (u32::MAX, [1, 2, 3, 4, 5, 6, 7, 65535]);
    assert_eq!(machine.set_reg(31, u32::MAX), Ok(()));
    assert_eq!(machine.set_vreg(31, [1, 2, 3, 4, 5, 6, 7, 65535]), Ok(()));
    assert_eq!((machine.set_reg(0, 0), machine.get()), (Ok(()), Ok(expected)));
    assert_eq!(why(machine.back(1)), Some(Status::ShortHistory));
    for (n, value) in [(0, 1), (32, 0), (u32::MAX, 0)] {
        assert_eq!(why(machine.set_reg(n, value)), Some(Status::OutOfRange));
    }
    assert_eq!(why(machine.set_vreg(32, [0; 8])), Some(Status::OutOfRange));
    assert_eq!(machine.get(), Ok(expected));
}

#[test]
fn bytes_of_states() {
    let mut machine = loaded("nop\n", 0);
    machine.set_reg(1, 0x0102_0304).unwrap();
    machine.set_vreg(2, [0x0506; 8]).unwrap();
    let state = machine.get().unwrap();
    let bytes = state.as_bytes();
    assert_eq!((bytes.len(), State::SIZE), (772, 772));
    assert_eq!((&bytes[4..8], &bytes[128 + 32..][..2]), (&0x0102_0304u32.to_ne_bytes()[..], &0x0506u16.to_ne_bytes()[..]));
    assert_eq!(State::from_bytes(bytes), Some(state));
    assert_eq!(State::from_bytes(&[&[9], &bytes[..]].concat()[1..]), Some(state));
    assert_eq!((State::from_bytes(&bytes[1..]), State::from_bytes(&[])), (None, None));
}

#[test]
fn texts() {
    let fault = assemble("nop\nfoo\n", 0).unwrap_err().assembly().unwrap();
    assert_eq!((fault.line, fault.fault, fault.operand), (2, 11, None));
    let refused = assemble("nop\nlqv $v1[0], 0x460($0)\n", 0).unwrap_err();
    assert_eq!(
        refused.to_string(),
        "assemble: fault 13 OutOfRange line 2: lqv $v1[0], 0x460($0); operand 2 may be -1024 to 1008, a multiple of 16"
    );
    let refused = assemble("j nowhere\n", 0).unwrap_err();
    assert_eq!(
        refused.to_string(),
        "assemble: fault 15 LabelMissing line 1: j nowhere; operand 1 may be the label of a line, or 0 to 4092, a multiple of 4"
    );
    let refused = assemble("lw $1, $2\n", 0).unwrap_err();
    assert_eq!(
        refused.to_string(),
        "assemble: fault 12 BadOperand line 1: lw $1, $2; operand 2 may be a number or a label, -32768 to 65535, and a scalar register in parentheses"
    );
    let refused = assemble("vrcp $v1, $v2[0]\n", 0).unwrap_err();
    assert_eq!(
        refused.to_string(),
        "assemble: fault 12 BadOperand line 1: vrcp $v1, $v2[0]; operand 1 may be a vector register, $v0 to $v31, with a lane, [0] to [7]"
    );
    assert_eq!(why(assemble("nop", 2)), Some(Status::OutOfRange));
    assert_eq!(text(0x4a63_1050, 4).as_deref(), Ok("vadd $v1, $v2, $v3[1q]"));
    assert_eq!(why(text(0, 4096)), Some(Status::OutOfRange));
    let machine = loaded("nop\nbreak\n", 0);
    let lines = machine.listing(0, 2).unwrap();
    assert_eq!((lines[1].address, lines[1].word, lines[1].text.as_str()), (4, 13, "break"));
    assert_eq!(why(machine.listing(4092, 2)), Some(Status::OutOfRange));
    assert_eq!(why(machine.listing(0, 1025)), Some(Status::OutOfRange));
    assert_eq!(why(machine.listing(u32::MAX, 0)), Some(Status::OutOfRange));
}
