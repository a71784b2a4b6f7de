//! Adds eight pairs of numbers, as `examples/first.rsp` of the repository does, and prints each instruction and the sums.

use rsp_core::acc::PlaneAcc;
use rsp_core::dis::text_of;
use rsp_core::machine::{Machine, StepEnd};
use rsp_core::memory::{Bank, Rdram};
use std::error::Error;

// lqv $v1[0], 0($0); lqv $v2[0], 16($0); vadd $v3, $v1, $v2; sqv $v3[0], 32($0); break
const WORDS: [u32; 5] = [
    0xc801_2000,
    0xc802_2001,
    0x4a02_08d0,
    0xe803_2002,
    0x0000_000d,
];
const NUMBERS: [u16; 16] = [
    1, 2, 3, 0x7fff, 0x8000, 0xffff, 0x10, 0x64, 1, 0xfffe, 3, 1, 0xffff, 1, 0x20, 0x64,
];

fn main() -> Result<(), Box<dyn Error>> {
    let mut machine = Machine::<PlaneAcc>::new(Rdram::from_bytes(vec![0; 64])?);
    machine.load_words(Bank::Imem, 0, &WORDS)?;
    let bytes: Vec<u8> = NUMBERS
        .iter()
        .flat_map(|number| number.to_be_bytes())
        .collect();
    machine.load_bytes(Bank::Dmem, 0, &bytes)?;
    while !machine.sp_regs().halted() {
        let pc = machine.pc();
        println!("{pc:03x} {}", text_of(machine.imem().word(pc.into()), pc));
        if !matches!(machine.step(), StepEnd::Done) {
            break;
        }
    }
    println!("{:x?}", machine.vreg(3).to_array());
    Ok(())
}
