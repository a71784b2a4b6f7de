//! Savestates. RSP_SAVESTATE may name a folder with a `text` and with `saved`, what another language saves of it.

use rsp::{assemble, Bank, Machine, RspError, Status};
use std::fs::read;
use std::path::PathBuf;

const TEXT: &str = "ori $1, $0, 0x1234\nsw $1, 8($0)\nlqv $v1[0], 0($0)\nvaddc $v2, $v1, $v1\nmtc0 $1, $c8\nbreak\n";

fn folder() -> Option<PathBuf> {
    std::env::var_os("RSP_SAVESTATE").map(PathBuf::from)
}

fn machine() -> Result<Machine, RspError> {
    let text = folder().map_or(TEXT.to_string(), |it| String::from_utf8(read(it.join("text")).unwrap()).unwrap());
    let image: Vec<u8> = (0..=255).collect();
    let mut machine = Machine::new(&image, 5)?;
    machine.load_words(Bank::Imem, 0, &assemble(&text, 0)?)?;
    machine.run(1000)?;
    Ok(machine)
}

#[test]
fn the_bytes_are_those_of_another_language() -> Result<(), RspError> {
    let saved = machine()?.save_state()?;
    assert_eq!(saved.len(), 9232);
    if let Some(folder) = folder() {
        assert_eq!(saved, read(folder.join("saved")).unwrap());
    }
    Ok(())
}

#[test]
fn what_is_loaded_is_what_was_saved() -> Result<(), RspError> {
    let (machine, mut other) = (machine()?, Machine::new(&[0; 256], 5)?);
    let saved = machine.save_state()?;
    other.add_break(0x7f0)?;
    other.run(3)?;
    other.load_state(&saved)?;
    assert!(other.save_state()? == saved && other.get()? == machine.get()? && other.history()? == 0);
    other.drop_break(0x7f0)
}

#[test]
fn what_is_refused_changes_nothing() -> Result<(), RspError> {
    let mut machine = machine()?;
    let saved = machine.save_state()?;
    let mut given: Vec<Vec<u8>> = [0, 11, 12, 9231].map(|it| saved[..it].to_vec()).into();
    for at in [0, 7, 11, 15, 705, 711, 713, 783] {
        given.push(saved.clone());
        given.last_mut().unwrap()[at] ^= 6;
    }
    for bytes in given {
        let fault = machine.load_state(&bytes).unwrap_err();
        assert!(fault.status() == Status::OutOfRange && fault.to_string().starts_with("load_state: "), "{fault}");
        assert!(machine.save_state()? == saved);
    }
    Ok(())
}
