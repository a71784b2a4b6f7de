// What an instruction writes, for a trace.

use crate::acc::Acc;
use crate::decode::{Inst, Visitor, visit};
use crate::machine::footprint::{Footprint, footprint_of};
use crate::machine::machine::Machine;

/// Which registers the word at pc writes when it is executed, and where it stores.
#[derive(Clone, Copy, Debug, PartialEq, Eq)]
pub struct Writes {
    /// The number of the scalar register, 1 to 31; 0 if it writes none, since register 0 is never
    /// written.
    pub scalar: u8,
    /// The number of the vector register, the first of eight for LTV; 32 if it writes none.
    pub vector: u8,
    /// The address in DMEM of a store, below 4096; else 0.
    pub address: u16,
    /// Whether it is a store.
    pub stored: bool,
}

/// The number of the scalar register that a footprint names; 0 if it names none.
#[inline(always)]
fn scalar_in(footprint: Footprint) -> u8 {
    match footprint {
        Footprint::Register(n) | Footprint::Sp(n) => n as u8,
        _ => 0,
    }
}

/// The number of the vector register that a footprint names, the first of a group; 32 if it names
/// none.
#[inline(always)]
fn vector_in(footprint: Footprint) -> u8 {
    match footprint {
        Footprint::Vector(n)
        | Footprint::Group(n)
        | Footprint::Product(n)
        | Footprint::Low(n)
        | Footprint::Sum(n)
        | Footprint::Choice(n)
        | Footprint::Clip(n)
        | Footprint::Divide(n) => n as u8,
        _ => 32,
    }
}

/// The address in DMEM of a store; 0 for any other instruction.
#[inline(always)]
fn stored_at<A: Acc>(inst: &Inst, machine: &Machine<A>) -> u16 {
    let address = match *inst {
        Inst::Store { fields, .. } => {
            crate::scalar::address(&machine.regs, fields.base, fields.offset)
        }
        Inst::VectorStore { fields, .. } => {
            crate::loadstore::address(inst, machine.regs.get(fields.base))
        }
        _ => 0,
    };
    (address % 4096) as u16
}

/// Names what an instruction writes.
struct Naming<'a, A: Acc> {
    machine: &'a Machine<A>,
    writes: Writes,
}

impl<'a, A: Acc> Visitor for Naming<'a, A> {
    #[inline(always)]
    fn take(&mut self, inst: Inst) {
        let footprint = footprint_of(&inst, self.machine);
        self.writes = Writes {
            scalar: scalar_in(footprint),
            vector: vector_in(footprint),
            address: stored_at(&inst, self.machine),
            stored: footprint.is_store(),
        };
    }
}

impl Writes {
    /// Which registers the word at pc writes when it is executed, and where it stores. A reserved
    /// word does neither.
    pub fn of<A: Acc>(machine: &Machine<A>) -> Writes {
        let mut naming = Naming {
            machine,
            writes: Writes {
                scalar: 0,
                vector: 32,
                address: 0,
                stored: false,
            },
        };
        visit(machine.word_at(machine.counters()), &mut naming);
        naming.writes
    }
}
