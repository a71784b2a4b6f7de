//! What users read: states, lines and refusals as text, and enums from numbers.

use rsp::{assemble, Bank, Fault, FlagBits, Machine, Scalars, State};
use std::error::Error;
use std::mem::size_of;
use std::ptr::{addr_of, addr_of_mut};

fn after(source: &str, data: &[u8], steps: u32) -> Machine {
    let mut machine = Machine::new(&[0; 64], 0).unwrap();
    machine.load(Bank::Dmem, 0, data).unwrap();
    machine.load_words(Bank::Imem, 0, &assemble(source, 0).unwrap()).unwrap();
    machine.run(steps).unwrap();
    machine
}

/// The data, the source and the replies are those of examples/vch.
#[test]
fn flags_and_accumulators() {
    let data: u128 = 0x00040005000000007fff8000ffff1234;
    let more: u128 = 0xfffbfffb000080008000800000010001;
    let data = [data.to_be_bytes(), more.to_be_bytes()].concat();
    let machine = after("lqv $v1[0], 0($0)\nlqv $v2[0], 16($0)\nvch $v3, $v1, $v2\nsqv $v3[0], 32($0)\nbreak\n", &data, 100);
    let (flags, divider) = (machine.flags().unwrap(), machine.divider().unwrap());
    assert_eq!(format!("{flags} {divider}"), "vco 885b vcc bf7b vce 11 in 0000 out 0000 loaded 0");
    let expected =
        "a0 000000000005\na1 000000000005\na2 000000000000\na3 000000008000\na4 000000008000\na5 000000008000\na6 00000000ffff\n\
                  a7 000000000001";
    assert_eq!(machine.acc().unwrap().to_string(), expected);
}

/// A state as the lines of scripts, in full.
#[test]
fn whole_states() {
    let machine = after("addiu $1, $0, 1\nmtc2 $1, $v1[0]\nvne $v2, $v1, $v0\n", &[], 3);
    let state = machine.get().unwrap();
    let text = state.to_string();
    let lines: Vec<&str> = text.lines().collect();
    assert_eq!(lines.len(), 9 + 32 + 1);
    assert_eq!(lines[..2], ["pc 00c npc 010", "r00 00000000 00000001 00000000 00000000"]);
    assert_eq!(lines[8], "r28 00000000 00000000 00000000 00000000");
    assert_eq!(lines[10], "v01 0001 0000 0000 0000 0000 0000 0000 0000");
    assert_eq!(lines[41], "vco 0000 vcc 0001 vce 00 in 0000 out 0000 loaded 0");
    assert_eq!(Scalars::from(&state), machine.regs().unwrap());
    assert_eq!(Scalars::from(&state).to_string(), lines[..9].join("\n"));
    assert_eq!(format!("{machine:?}"), "Machine { pc: 0x00c, npc: 0x010, .. }");
    assert_eq!(machine.listing(4, 1).unwrap()[0].to_string(), "004 48810800 mtc2 $1, $v1[0]");
    let mut other = State::default();
    assert_eq!(machine.get_into(&mut other), Ok(()));
    assert_eq!(other, state);
}

/// One change in each part, and what it is called.
#[test]
fn differences() {
    let one = State::default();
    let mut other = one;
    (other.pc, other.words[3], other.vectors[2][5], other.accumulators.high[7]) = (4, 0x3fff_fff0, 1, 2);
    (other.flags.differ, other.flags.extra, other.divider.loaded, other.sp[7], other.sp[15], other.interrupt) = (0x80, 1, 1, 1, 5, 1);
    let found: Vec<String> = other.diff(&one).iter().map(|it| format!("{it}")).collect();
    let names = ["pc is 004", "$3 is 3ffffff0", "$v2 lane 5 is 0001", "accumulator 7 is 000200000000", "vco is 8000", "vce is 01"];
    let more = ["loaded is 1", "SP_SEMAPHORE is 00000001", "DPC register 7 is 00000005", "interrupt is 1"];
    assert_eq!(found.len(), names.len() + more.len());
    found.iter().zip(names.iter().chain(&more)).for_each(|(it, name)| assert!(it.starts_with(&format!("{name} here and ")), "{it}"));
    assert_eq!(one.diff(&one), []);
    let (here, there) = (Scalars { pc: 4, ..Scalars::default() }, Scalars::default());
    assert_eq!(here.diff(&there)[0].told("on the machine", "in the emulator"), "pc is 004 on the machine and 000 in the emulator");
}

/// Each byte of a state is in a part, but for `zero`.
#[test]
fn every_part() {
    let state = State::default();
    let zero = addr_of!(state.flags) as usize + size_of::<FlagBits>() - addr_of!(state) as usize;
    for n in (0..size_of::<State>()).filter(|n| *n != zero) {
        let mut other = State::default();
        // SAFETY: any bytes are a state.
        unsafe { *addr_of_mut!(other).cast::<u8>().add(n) = 1 };
        assert_eq!(other.diff(&state).len(), 1, "byte {n}");
    }
}

#[test]
fn refusals() {
    let refused = assemble("nop\nfoo\n", 0).unwrap_err();
    assert_eq!(refused.to_string(), "assemble: fault 11 UnknownName line 2: foo");
    assert_eq!(refused.source().unwrap().downcast_ref(), Some(&Fault::UnknownName));
    assert_eq!(refused.source().unwrap().to_string(), "no statement has this name");
    let mut machine = Machine::new(&[0; 64], 0).unwrap();
    let refused = machine.back(1).unwrap_err();
    assert_eq!(refused.to_string(), "back: the history holds fewer states than 1");
    assert!(refused.source().is_none());
    assert_eq!(machine.add_break(2).unwrap_err().to_string(), "add_break: address is 2, not a multiple of 4 below 4096");
    let refused = machine.load(Bank::Imem, 4095, &[1, 2]).unwrap_err();
    assert_eq!(refused.to_string(), "load: the bytes from 4095 on pass the end of IMEM");
    let refused = assemble("\x1b\u{202e}x", 0).unwrap_err().to_string();
    assert!(refused.ends_with(r": \u{1b}\u{202e}x"), "what a terminal would obey is shown as an escape: {refused:?}");
    assert_eq!(machine.run(5).unwrap().to_string(), "5 steps to pc 014: all steps are made");
}

#[test]
fn numbers() {
    assert_eq!((0..3).map(Bank::try_from).collect::<Result<Vec<_>, _>>(), Ok(vec![Bank::Dmem, Bank::Imem, Bank::Rdram]));
    assert_eq!(Bank::try_from(3).unwrap_err().to_string(), "3 is no bank");
    assert_eq!(Fault::try_from(16), Ok(Fault::PastEnd));
    assert_eq!(Fault::try_from(33), Ok(Fault::NotText));
    assert_eq!(Fault::try_from(17).unwrap_err().to_string(), "17 is no fault of a text");
    assert_eq!(Bank::Rdram.to_string(), "RDRAM");
}
