//! An emulator as a shared object of a campaign's cases: the functions of `conformance/rsp_conformance/campaign/cases.h`.

use crate::{Bank, Emulator, FlagBits, State, StepEnd};
use std::ops::Range;
use std::panic::{catch_unwind, AssertUnwindSafe};
use std::{process, slice};

// The memories in one array: where IMEM and RDRAM begin after DMEM, and how many bytes there are.
const IMEM: usize = 4096;
const RDRAM: usize = 8192;
const MEMORIES: usize = RDRAM + 16384;
/// How many bytes are compared at once.
const PIECE: usize = 1024;

/// The status of `cases.h` for how a case ended.
fn status_of(end: StepEnd) -> u32 {
    match end {
        StepEnd::Done => 0,
        StepEnd::Halted => 104,
        StepEnd::Reserved => 105,
    }
}

/// A case: all registers, and the word at their pc.
#[doc(hidden)]
#[repr(C)]
#[derive(Clone, Copy)]
pub struct Case {
    state: State,
    word: u32,
}

/// What a case leaves.
#[doc(hidden)]
#[repr(C)]
#[derive(Clone, Copy)]
pub struct End {
    state: State,
    status: u32,
    changed: u64,
}

/// The most operations of a batch, and all words of IMEM.
const OPERATIONS: usize = 128;
const WORDS: usize = 1024;

/// Operations on all lanes, each of `group` words, for `conformance/every`.
#[doc(hidden)]
#[repr(C)]
pub struct Operations {
    count: u32,
    group: u32,
    are_new: u32,
    words: [u32; WORDS],
}

/// What each operation leaves.
#[doc(hidden)]
#[repr(C)]
pub struct LaneEnds {
    result: [[u16; 8]; OPERATIONS],
    high: [[u16; 8]; OPERATIONS],
    middle: [[u16; 8]; OPERATIONS],
    low: [[u16; 8]; OPERATIONS],
    flags: [FlagBits; OPERATIONS],
}

/// An emulator, and the memories before a case and after it.
#[doc(hidden)]
pub struct Side<E> {
    emulator: E,
    before: Vec<u8>,
    after: Vec<u8>,
}

/// A sum over the address and the byte of each byte that has changed.
fn digest(before: &[u8], after: &[u8]) -> u64 {
    let pieces = before.chunks(PIECE).zip(after.chunks(PIECE)).enumerate().filter(|(_, (old, new))| old != new);
    let bytes = pieces.flat_map(|(n, (old, new))| old.iter().zip(new).enumerate().map(move |(at, pair)| (n * PIECE + at, pair)));
    bytes.filter(|(_, (old, new))| old != new).fold(0, |sum, (at, (_, new))| {
        let x = ((at as u64) << 8 | u64::from(*new)).wrapping_mul(0xbf58_476d_1ce4_e5b9).wrapping_add(0x9e37_79b9_7f4a_7c15);
        let x = (x ^ x >> 27).wrapping_mul(0x94d0_49bb_1331_11eb);
        sum.wrapping_add(x ^ x >> 31)
    })
}

/// Whether a word is an MTC0 of a length: it can reach the RDRAM.
fn is_dma(word: u32) -> bool {
    word & 0xffe0_7000 == 0x4080_1000
}

/// The banks that so many bytes of the memories have, with where each begins and ends.
fn banks(length: usize) -> impl Iterator<Item = (Bank, Range<usize>)> {
    let all = [(Bank::Dmem, 0..IMEM), (Bank::Imem, IMEM..RDRAM), (Bank::Rdram, RDRAM..MEMORIES)];
    all.into_iter().filter(move |(_, range)| range.end <= length)
}

impl<E: Emulator + Default> Side<E> {
    fn new(memories: &[u8]) -> Self {
        let mut side = Side { emulator: E::default(), before: memories.to_vec(), after: memories.to_vec() };
        side.load(memories);
        side
    }

    fn load(&mut self, memories: &[u8]) {
        banks(memories.len()).for_each(|(bank, range)| self.emulator.load(bank, 0, &memories[range]));
    }

    /// Runs a case from the memories that the emulator was given. It has them again afterwards, except the case's word.
    fn case(&mut self, case: &Case) -> End {
        let Side { emulator, before, after } = self;
        let reach = if is_dma(case.word) { MEMORIES } else { RDRAM };
        let at = IMEM + usize::from(case.state.pc);
        let kept = before[at..at + 4].to_vec();
        before[at..at + 4].copy_from_slice(&case.word.to_be_bytes());
        emulator.set(&case.state);
        emulator.load(Bank::Imem, 0, &before[IMEM..RDRAM]);
        let (status, state) = (status_of(emulator.case()), emulator.get());
        banks(reach).for_each(|(bank, range)| emulator.memory(bank, 0, &mut after[range]));
        let changed = digest(&before[..reach], &after[..reach]);
        before[at..at + 4].copy_from_slice(&kept);
        if changed != 0 {
            banks(reach).for_each(|(bank, range)| emulator.load(bank, 0, &before[range]));
        }
        End { state, status, changed }
    }

    /// Executes operations, and returns how many words are done before the first that isn't.
    fn lanes(&mut self, state: &State, operations: &Operations, ends: &mut LaneEnds) -> u32 {
        let (count, group) = (operations.count as usize, operations.group as usize);
        let words = &operations.words[..count * group];
        self.emulator.set(state);
        if operations.are_new != 0 {
            let mut imem = self.before[IMEM..RDRAM].to_vec();
            imem.chunks_exact_mut(4).zip(words).for_each(|(bytes, word)| bytes.copy_from_slice(&word.to_be_bytes()));
            self.emulator.load(Bank::Imem, 0, &imem);
        }
        for (i, word) in words.iter().enumerate() {
            if !matches!(self.emulator.case(), StepEnd::Done) {
                return i as u32;
            }
            if (i + 1) % group == 0 {
                ends.put(i / group, (word >> 6 & 31) as usize, &self.emulator.get());
            }
        }
        words.len() as u32
    }
}

impl LaneEnds {
    /// Puts what an operation leaves into its row.
    fn put(&mut self, row: usize, vd: usize, state: &State) {
        self.result[row] = state.vectors[vd];
        self.high[row] = state.accumulators.high;
        self.middle[row] = state.accumulators.middle;
        self.low[row] = state.accumulators.low;
        self.flags[row] = state.flags;
    }
}

/// A panic has printed its message: no caller in C may see it unwind.
fn guarded<T>(work: impl FnOnce() -> T) -> T {
    catch_unwind(AssertUnwindSafe(work)).unwrap_or_else(|_| process::abort())
}

// SAFETY of all calls below, which `cases!` alone makes: a campaign gives what `cases.h` says. Pointers lead to what they say, and `side` is what `open`
// has returned. It is used by one call at a time, and never freed.

#[doc(hidden)]
pub unsafe fn open<E: Emulator + Default>(memories: *const u8) -> *mut Side<E> {
    guarded(|| Box::into_raw(Box::new(Side::new(slice::from_raw_parts(memories, MEMORIES)))))
}

#[doc(hidden)]
pub unsafe fn run<E: Emulator + Default>(side: *mut Side<E>, cases: *const Case, ends: *mut End, count: usize) {
    let pairs = slice::from_raw_parts(cases, count).iter().zip(slice::from_raw_parts_mut(ends, count));
    guarded(|| pairs.for_each(|(case, end)| *end = (*side).case(case)));
}

#[doc(hidden)]
pub unsafe fn set<E: Emulator>(side: *mut Side<E>, state: *const State) {
    guarded(|| (*side).emulator.set(&*state));
}

#[doc(hidden)]
pub unsafe fn get<E: Emulator>(side: *mut Side<E>, state: *mut State) {
    guarded(|| *state = (*side).emulator.get());
}

#[doc(hidden)]
pub unsafe fn load<E: Emulator + Default>(side: *mut Side<E>, memories: *const u8) {
    guarded(|| (*side).load(slice::from_raw_parts(memories, MEMORIES)));
}

#[doc(hidden)]
pub unsafe fn look<E: Emulator>(side: *mut Side<E>, memories: *mut u8) {
    let memories = slice::from_raw_parts_mut(memories, MEMORIES);
    guarded(|| banks(MEMORIES).for_each(|(bank, range)| (*side).emulator.memory(bank, 0, &mut memories[range])));
}

#[doc(hidden)]
pub unsafe fn lanes<E: Emulator + Default>(
    side: *mut Side<E>,
    state: *const State,
    operations: *const Operations,
    ends: *mut LaneEnds,
) -> u32 {
    guarded(|| (*side).lanes(&*state, &*operations, &mut *ends))
}

#[doc(hidden)]
pub unsafe fn steps<E: Emulator>(side: *mut Side<E>, steps: u32) -> u32 {
    guarded(|| (*side).emulator.steps(steps))
}

/// Makes a shared object that `conformance/campaign` checks, of an [`Emulator`](crate::Emulator) with a `Default`.
///
/// The crate has `crate-type = ["cdylib"]`. RDRAM has 16384 bytes.
///
/// ```
/// # use rsp::{Bank, Emulator, State};
/// #[derive(Default)]
/// struct Mine {
///     state: State,
///     // ..
/// }
///
/// impl Emulator for Mine {
///     // ..
/// #   fn run(&mut self, _: u32) {}
/// #   fn get(&self) -> State { self.state }
/// #   fn set(&mut self, state: &State) { self.state = *state; }
/// #   fn memory(&self, _: Bank, _: u32, _: &mut [u8]) {}
/// #   fn load(&mut self, _: Bank, _: u32, _: &[u8]) {}
/// }
///
/// rsp::cases!(Mine);
/// # fn main() {}
/// ```
#[macro_export]
macro_rules! cases {
    ($emulator:ty) => {
        /// Opens an emulator with these memories.
        #[no_mangle]
        unsafe extern "C" fn cases_open(_what: *const u8, memories: *const u8) -> *mut $crate::cases::Side<$emulator> {
            $crate::cases::open(memories)
        }

        /// Runs cases. No state is refused.
        #[no_mangle]
        unsafe extern "C" fn cases_run(
            side: *mut $crate::cases::Side<$emulator>,
            cases: *const $crate::cases::Case,
            ends: *mut $crate::cases::End,
            count: usize,
        ) -> i32 {
            $crate::cases::run(side, cases, ends, count);
            0
        }

        /// Sets all registers.
        #[no_mangle]
        unsafe extern "C" fn cases_set(side: *mut $crate::cases::Side<$emulator>, state: *const $crate::State) {
            $crate::cases::set(side, state)
        }

        /// Gives all registers.
        #[no_mangle]
        unsafe extern "C" fn cases_get(side: *mut $crate::cases::Side<$emulator>, state: *mut $crate::State) {
            $crate::cases::get(side, state)
        }

        /// Sets all memories.
        #[no_mangle]
        unsafe extern "C" fn cases_load(side: *mut $crate::cases::Side<$emulator>, memories: *const u8) {
            $crate::cases::load(side, memories)
        }

        /// Gives all memories.
        #[no_mangle]
        unsafe extern "C" fn cases_look(side: *mut $crate::cases::Side<$emulator>, memories: *mut u8) {
            $crate::cases::look(side, memories)
        }

        /// Executes operations on all lanes.
        #[no_mangle]
        unsafe extern "C" fn cases_lanes(
            side: *mut $crate::cases::Side<$emulator>,
            state: *const $crate::State,
            operations: *const $crate::cases::Operations,
            ends: *mut $crate::cases::LaneEnds,
        ) -> u32 {
            $crate::cases::lanes(side, state, operations, ends)
        }

        /// Makes steps.
        #[no_mangle]
        unsafe extern "C" fn cases_step(side: *mut $crate::cases::Side<$emulator>, steps: u32) {
            $crate::cases::steps(side, steps);
        }

        /// Makes steps without a pause, and returns how many are done.
        #[no_mangle]
        unsafe extern "C" fn cases_steps(side: *mut $crate::cases::Side<$emulator>, steps: u32) -> u32 {
            $crate::cases::steps(side, steps)
        }
    };
}
