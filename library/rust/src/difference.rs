//! The parts in which two states differ.

use crate::helpers::{part_text, state_parts};
use crate::raw;
use crate::{Scalars, State};
use std::fmt::{Display, Formatter, Result};

/// A part of a state.
#[derive(Clone, Copy, Debug, PartialEq, Eq)]
#[non_exhaustive]
pub enum Place {
    /// The address of the next instruction.
    Pc,
    /// The address of the one after it.
    Npc,
    /// The scalar register of this number.
    Register(usize),
    /// A lane of a vector register.
    Lane {
        /// The register's number.
        vector: usize,
        /// The lane's number.
        lane: usize,
    },
    /// The 48 bits of the accumulator of this number.
    Accumulator(usize),
    /// The flags VCO.
    Vco,
    /// The flags VCC.
    Vcc,
    /// The flags VCE.
    Vce,
    /// DIV_IN.
    DivIn,
    /// DIV_OUT.
    DivOut,
    /// Whether DIV_IN is loaded.
    DivLoaded,
    /// The SP register of this number, from 8 on one of the DPC's.
    Sp(usize),
    /// The interrupt flag.
    Interrupt,
}

impl Place {
    /// All parts of a state, by their numbers in C.
    fn all() -> impl Iterator<Item = Place> {
        let lanes = (0..32).flat_map(|vector| (0..8).map(move |lane| Place::Lane { vector, lane }));
        let flags = [Place::Vco, Place::Vcc, Place::Vce, Place::DivIn, Place::DivOut, Place::DivLoaded];
        let scalars = [Place::Pc, Place::Npc].into_iter().chain((0..32).map(Place::Register));
        let vectors = lanes.chain((0..8).map(Place::Accumulator)).chain(flags);
        scalars.chain(vectors).chain((0..16).map(Place::Sp)).chain([Place::Interrupt])
    }

    /// The part of two states that differ in all parts, which has its name and its digits.
    fn part(self) -> raw::Part {
        let every = State::from_bytes(&[0xff; State::SIZE]).unwrap_or_default();
        let none = State::from_bytes(&[0; State::SIZE]).unwrap_or_default();
        let mut named = Place::all().zip(state_parts(&every, &none));
        named.find(|(it, _)| *it == self).map_or(raw::Part::default(), |(_, part)| part)
    }
}

/// Its name, as scripts show it: `$3`.
impl Display for Place {
    fn fmt(&self, f: &mut Formatter<'_>) -> Result {
        f.write_str(String::from_utf8_lossy(&self.part().name).trim_end_matches('\0'))
    }
}

/// A part that differs, with both values.
#[derive(Clone, Copy, Debug, PartialEq, Eq)]
#[non_exhaustive]
pub struct Part {
    /// Which part it is.
    pub place: Place,
    /// Its value here.
    pub value: u64,
    /// Its value in the other state.
    pub other: u64,
}

impl Part {
    /// A part that C has found; none if it is of a memory.
    pub(crate) fn of(it: &raw::Part) -> Option<Part> {
        let place = if it.bank == raw::NO_BANK as u32 { Place::all().nth(it.number as usize) } else { None };
        place.map(|place| Part { place, value: it.value[1], other: it.other[1] })
    }

    /// The sentence `$3 is fffffff0 HERE and 3ffffff0 THERE`.
    pub fn told(&self, here: &str, there: &str) -> String {
        part_text(&raw::Part { value: [0, self.value], other: [0, self.other], ..self.place.part() }, here, there)
    }
}

impl Display for Part {
    fn fmt(&self, f: &mut Formatter<'_>) -> Result {
        f.write_str(&self.told("here", "in the other"))
    }
}

impl State {
    /// The value of a part.
    pub fn part(&self, place: Place) -> u64 {
        let (acc, flags) = (&self.accumulators, &self.flags);
        match place {
            Place::Pc => self.pc.into(),
            Place::Npc => self.npc.into(),
            Place::Register(n) => self.words[n].into(),
            Place::Lane { vector, lane } => self.vectors[vector][lane].into(),
            Place::Accumulator(n) => u64::from(acc.high[n]) << 32 | u64::from(acc.middle[n]) << 16 | u64::from(acc.low[n]),
            Place::Vco => u16::from_be_bytes([flags.differ, flags.carry]).into(),
            Place::Vcc => u16::from_be_bytes([flags.clip, flags.compare]).into(),
            Place::Vce => flags.extra.into(),
            Place::DivIn => self.divider.input.into(),
            Place::DivOut => self.divider.output.into(),
            Place::DivLoaded => self.divider.loaded.into(),
            Place::Sp(n) => self.sp[n].into(),
            Place::Interrupt => self.interrupt.into(),
        }
    }

    /// The parts in which they differ, in the order of scripts.
    pub fn diff(&self, other: &State) -> Vec<Part> {
        state_parts(self, other).iter().filter_map(Part::of).collect()
    }
}

impl From<&Scalars> for State {
    /// A state whose other registers are 0.
    fn from(scalars: &Scalars) -> State {
        State { words: scalars.words, pc: scalars.pc, npc: scalars.npc, ..State::default() }
    }
}

impl Scalars {
    /// The parts in which they differ.
    pub fn diff(&self, other: &Scalars) -> Vec<Part> {
        State::from(self).diff(&other.into())
    }
}
