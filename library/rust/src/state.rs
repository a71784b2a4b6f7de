//! The states of a machine: their bytes, and why a machine refuses one.

use crate::raw::{self, field};
use crate::shapes::{Accumulators, DivideState, FlagBits, SpWords, State};
use std::fmt;
use std::mem::size_of;

/// SP_RD_LEN and SP_WR_LEN of a new machine.
const LENGTH: u32 = 0xff8;

impl Default for State {
    fn default() -> State {
        State {
            words: [0; 32],
            vectors: [[0; 8]; 32],
            accumulators: Accumulators::default(),
            flags: FlagBits::default(),
            zero: 0,
            divider: DivideState::default(),
            pc: 0,
            npc: 4,
            sp: SpWords::default().words,
            interrupt: 0,
        }
    }
}

impl Default for SpWords {
    fn default() -> SpWords {
        SpWords { words: [0, 0, LENGTH, LENGTH, 0, 0, 0, 0, 0, 0, 0, 0, 0, 0, 0, 0], interrupt: 0 }
    }
}

/// A field of a [`State`] with a value that no machine can have.
#[derive(Clone, Copy, Debug, PartialEq, Eq)]
#[non_exhaustive]
pub enum Field {
    /// `words[0]` isn't 0.
    Zero,
    /// `divider.loaded` isn't 0 or 1.
    Loaded,
    /// `pc` isn't a multiple of 4 below 4096.
    Pc,
    /// `npc` isn't a multiple of 4 below 4096.
    Npc,
    /// `interrupt` isn't 0 or 1.
    Interrupt,
    /// `sp[n]` can't be read from that register.
    Sp(u32),
}

impl fmt::Display for Field {
    fn fmt(&self, f: &mut fmt::Formatter<'_>) -> fmt::Result {
        f.write_str(match self {
            Field::Zero => "words[0]",
            Field::Loaded => "divider.loaded",
            Field::Pc => "pc",
            Field::Npc => "npc",
            Field::Interrupt => "interrupt",
            Field::Sp(n) => return write!(f, "sp[{n}]"),
        })
    }
}

impl State {
    /// The number of bytes of a state.
    pub const SIZE: usize = size_of::<State>();

    /// A state from its bytes, which are those of a `brsp_state` of C on this computer. None unless there are [`SIZE`](State::SIZE) of them.
    pub fn from_bytes(bytes: &[u8]) -> Option<State> {
        // SAFETY: there are as many bytes as a state has, and any bytes are one, since all its fields are numbers.
        (bytes.len() == State::SIZE).then(|| unsafe { bytes.as_ptr().cast::<State>().read_unaligned() })
    }

    /// The bytes of the state, from which [`from_bytes`](State::from_bytes) makes it again.
    pub fn as_bytes(&self) -> &[u8; State::SIZE] {
        // SAFETY: a state has no padding: `zero` stands where it would be.
        unsafe { &*(self as *const State).cast() }
    }

    /// The first field for which [`Machine::set`](crate::Machine::set) refuses a state.
    pub fn fault(&self) -> Option<Field> {
        let mut out = 0;
        // SAFETY: both pointers are of borrows.
        unsafe { raw::brsp_state_fault(self, &mut out) };
        match out {
            0 => None,
            field::ZERO => Some(Field::Zero),
            field::LOADED => Some(Field::Loaded),
            field::PC => Some(Field::Pc),
            field::NPC => Some(Field::Npc),
            field::INTERRUPT => Some(Field::Interrupt),
            more => Some(Field::Sp(more - field::SP)),
        }
    }
}
