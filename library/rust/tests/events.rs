//! Runs to events, DMAs that a caller moves, the length of the history, and labels.

use rsp::{assemble, labels, Bank, Dma, Machine, MoveEnd, Reason, RspError, Status, StepEnd, STATUS_WRITES};

/// Why a call was refused.
fn why<T>(result: Result<T, RspError>) -> Option<Status> {
    result.err().map(|it| it.status())
}

const TEXT: &str = "start: ori $1, $0, 0x1f80\nmtc0 $1, $c0\nori $2, $0, 0x200\nmtc0 $2, $c1\nlui $3, 0x0180\nori $3, $3, 0x1007\n\
    mfc0 $4, $c6\ntransfer: mtc0 $3, $c3\nend: break\n";

fn machine() -> Result<Machine, RspError> {
    let mut machine = Machine::new(&[0; 4096], 8)?;
    machine.load_words(Bank::Imem, 0, &assemble(TEXT, 0)?)?;
    Ok(machine)
}

#[test]
fn events_are_described() -> Result<(), RspError> {
    let mut machine = machine()?;
    let event = machine.event(6, 0, 0)?;
    assert!(matches!(event.at, MoveEnd::Stop(stop) if stop.reason == Reason::Limit && stop.steps == 6));
    assert_eq!((event.dma, event.status, event.interrupt, machine.history()?), (None, 0, false, 6));
    let event = machine.event(5, 1 << 6, 0)?;
    assert!(matches!(event.at, MoveEnd::Move { steps: 0, number: 6, writes: false, .. }) && event.dma.is_none());
    machine.pass_move(5)?;
    let event = machine.event(1, 0, 0)?;
    assert!(matches!(event.at, MoveEnd::Move { steps: 0, number: 3, writes: true, value: 0x0180_1007, .. }));
    let dma = Dma { bank: 1, address: 0xf80, rdram: 0x200, length: 8, rows: 2, skip: 24, to_rdram: 1 };
    assert_eq!(event.dma, Some(dma));
    assert_eq!(why(machine.event(0, 0, 0)), Some(Status::OutOfRange));
    assert_eq!(why(machine.event(1, 0, 2 * STATUS_WRITES)), Some(Status::OutOfRange));
    Ok(())
}

#[test]
fn an_interrupt_ends_a_run() -> Result<(), RspError> {
    let mut machine = Machine::new(&[0; 64], 0)?;
    machine.load_words(Bank::Imem, 0, &assemble("ori $1, $0, 0x10\nloop: mtc0 $1, $c4\nj loop\nnop\n", 0)?)?;
    for (reason, steps) in [(Reason::Interrupt, 2), (Reason::Status, 3)] {
        let event = machine.event(100, 0, STATUS_WRITES)?;
        assert!(event.interrupt && matches!(event.at, MoveEnd::Stop(stop) if stop.reason == reason && stop.steps == steps));
    }
    assert!(matches!(machine.event(100, 0, 0)?.at, MoveEnd::Stop(stop) if stop.reason == Reason::Limit));
    Ok(())
}

#[test]
fn a_passed_dma_is_the_step_but_for_the_bytes() -> Result<(), RspError> {
    let mut machine = machine()?;
    machine.run(7)?;
    let mut other = machine.copy()?;
    assert_eq!((machine.pass_dma()?, other.step()?), (StepEnd::Done, StepEnd::Done));
    assert!(machine.get()? == other.get()? && machine.history()? == 0);
    assert_eq!(why(machine.pass_dma()), Some(Status::OtherWord));
    machine.run(1)?;
    assert_eq!(machine.pass_dma()?, StepEnd::Halted);
    Ok(())
}

#[test]
fn a_dma_of_the_cpu_is_the_write_but_for_the_bytes() -> Result<(), RspError> {
    let mut machine = machine()?;
    machine.load(Bank::Imem, 0xf80, &[1; 8])?;
    let (mut other, mut bytes) = (machine.copy()?, [0; 8]);
    for (n, value) in [(0, 0x1f80), (1, 0x200), (3, 0x0180_1007)] {
        let dma = machine.write_dma(n, value)?;
        let all = Dma { bank: 1, address: 0xf80, rdram: 0x200, length: 8, rows: 2, skip: 24, to_rdram: 1 };
        assert_eq!(dma, (n == 3).then_some(all));
        other.write(n, value)?;
    }
    machine.memory(Bank::Rdram, 0x200, &mut bytes)?;
    assert!(machine.get()? == other.get()? && bytes == [0; 8]);
    Ok(())
}

#[test]
fn labels_have_their_addresses() -> Result<(), RspError> {
    let found = labels(TEXT, 0x100)?;
    let expected = [("start", 0x100), ("transfer", 0x11c), ("end", 0x120)].map(|(name, at)| (name.to_string(), at));
    assert_eq!(found, expected);
    assert!(labels("nop", 0)?.is_empty() && labels("j x", 0).unwrap_err().assembly().map(|it| it.line) == Some(1));
    Ok(())
}
