//! What the headers of library/c declare. `tools/shapes` writes this file.

#![allow(dead_code)] // the crate doesn't need all that C has

use crate::shapes::{Accumulators, Changes, DivideState, Dma, FlagBits, Scalars, SpWords, State, Traced};

#[allow(dead_code)]
pub const REPLIES: usize = 16384;
#[allow(dead_code)]
pub const SAVESTATE_VERSION: usize = 1;
#[allow(dead_code)]
pub const SAVESTATE_BYTES: usize = 8976;
#[allow(dead_code)]
pub const PARTS: usize = 321;
#[allow(dead_code)]
pub const NO_BANK: usize = 3;

pub mod status {
    pub const OK: u32 = 0;
    pub const NO_MACHINE: u32 = 101;
    pub const NO_MEMORY: u32 = 102;
    pub const OUT_OF_RANGE: u32 = 103;
    pub const HALTED: u32 = 104;
    pub const RESERVED: u32 = 105;
    pub const NO_MEANING: u32 = 106;
    pub const TASK_PLACE: u32 = 107;
    pub const TASK_SIZE: u32 = 108;
    pub const BREAK_FULL: u32 = 109;
    pub const BREAK_TWICE: u32 = 110;
    pub const NO_BREAK: u32 = 111;
    pub const WATCH_FULL: u32 = 112;
    pub const NO_WATCH: u32 = 113;
    pub const SHORT_HISTORY: u32 = 114;
    pub const NO_ROOM: u32 = 115;
    pub const ENDED: u32 = 116;
    pub const TOO_LONG: u32 = 117;
    pub const OTHER_WORD: u32 = 118;
}

pub mod fault {
    pub const BAD_LINE: u32 = 10;
    pub const UNKNOWN_NAME: u32 = 11;
    pub const BAD_OPERAND: u32 = 12;
    pub const OUT_OF_RANGE: u32 = 13;
    pub const LABEL_TWICE: u32 = 14;
    pub const LABEL_MISSING: u32 = 15;
    pub const PAST_END: u32 = 16;
    pub const OUT_OF_MEMORY: u32 = 17;
    pub const NOT_TEXT: u32 = 33;
}

pub mod bank {
    pub const DMEM: u32 = 0;
    pub const IMEM: u32 = 1;
    pub const RDRAM: u32 = 2;
}

pub mod reason {
    pub const RESERVED: u32 = 0;
    pub const HALT: u32 = 1;
    pub const WATCH: u32 = 2;
    pub const BREAK: u32 = 3;
    pub const LIMIT: u32 = 4;
    pub const MOVE: u32 = 5;
    pub const DMA: u32 = 6;
    pub const INTERRUPT: u32 = 7;
    pub const STATUS: u32 = 8;
}

pub mod field {
    pub const ZERO: u32 = 1;
    pub const LOADED: u32 = 2;
    pub const PC: u32 = 3;
    pub const NPC: u32 = 4;
    pub const INTERRUPT: u32 = 5;
    pub const SP: u32 = 16;
}

pub mod savestate_fault {
    pub const FINE: u32 = 0;
    pub const MAGIC: u32 = 1;
    pub const OTHER_VERSION: u32 = 2;
    pub const LENGTH: u32 = 3;
    pub const IMAGE: u32 = 4;
    pub const STATE: u32 = 5;
}

pub mod structure {
    pub const STATE: u32 = 0;
    pub const SCALARS: u32 = 1;
    pub const ACCUMULATORS: u32 = 2;
    pub const FLAGS: u32 = 3;
    pub const DIVIDER: u32 = 4;
    pub const SP: u32 = 5;
    pub const TRACED: u32 = 6;
    pub const CHANGES: u32 = 7;
}

pub mod request_kind {
    pub const OVER: u32 = 0;
    pub const RUN: u32 = 1;
    pub const SET: u32 = 2;
    pub const LOAD: u32 = 3;
    pub const GET: u32 = 4;
    pub const MEMORY: u32 = 5;
}

#[repr(C)]
pub struct Machine {
    pub at: *mut u8,
}

#[repr(C)]
pub struct Session {
    pub at: *mut u8,
}

#[repr(C)]
#[derive(Clone, Copy, Debug, PartialEq, Eq)]
pub struct Label {
    pub address: u16,
    pub len: u16,
    pub name: [u8; 36],
}

#[repr(C)]
#[derive(Clone, Copy, Debug, Default, PartialEq, Eq)]
pub struct Stop {
    pub reason: u32,
    pub steps: u32,
    pub watch: usize,
    pub pc: u16,
    pub word: u32,
}

#[repr(C)]
#[derive(Clone, Copy, Debug, Default, PartialEq, Eq)]
pub struct Move {
    pub stop: Stop,
    pub word: u32,
    pub number: u32,
    pub writes: u32,
    pub value: u32,
}

#[repr(C)]
#[derive(Clone, Copy, Debug, Default, PartialEq, Eq)]
pub struct Lanes {
    pub lanes: [u16; 8],
}

#[repr(C)]
#[derive(Clone, Copy, Debug, Default, PartialEq, Eq)]
pub struct Assembled {
    pub count: usize,
    pub line: usize,
    pub fault: u32,
}

#[repr(C)]
#[derive(Clone, Copy, Debug, PartialEq, Eq)]
pub struct Line {
    pub word: u32,
    pub address: u16,
    pub len: u16,
    pub text: [u8; 68],
}

#[repr(C)]
#[derive(Clone, Copy, Debug, Default, PartialEq, Eq)]
pub struct Operand {
    pub low: i64,
    pub high: i64,
    pub number: usize,
    pub kind: u32,
    pub step: u32,
}

#[repr(C)]
#[derive(Clone, Copy, Debug, Default, PartialEq, Eq)]
pub struct Reached {
    pub at: Move,
    pub dma: Dma,
    pub status: u32,
    pub interrupt: u32,
}

#[repr(C)]
#[derive(Clone, Copy, Debug, Default, PartialEq, Eq)]
pub struct Part {
    pub name: [u8; 24],
    pub value: [u64; 2],
    pub other: [u64; 2],
    pub digits: u32,
    pub bank: u32,
    pub address: u32,
    pub number: u32,
}

#[repr(C)]
#[derive(Clone, Copy, Debug, Default, PartialEq, Eq)]
pub struct Request {
    pub kind: u32,
    pub steps: u32,
    pub bank: u32,
    pub address: u32,
    pub at: usize,
    pub len: usize,
}

#[repr(C)]
#[derive(Clone, Copy, Debug, PartialEq, Eq)]
pub struct Difference {
    pub step: u32,
    pub steps: u32,
    pub line: Line,
    pub before: State,
    pub parts: *mut Part,
    pub count: usize,
}

extern "C" {
    pub fn brsp_acc(handle: *mut Machine, out: *mut Accumulators) -> u32;
    pub fn brsp_add_break(handle: *mut Machine, address: u32) -> u32;
    pub fn brsp_add_watch(handle: *mut Machine, address: u32, len: u32, number: *mut usize) -> u32;
    pub fn brsp_argument_name(call: *const u8, number: usize) -> *const u8;
    pub fn brsp_assemble(origin: u32, text: *const u8, text_len: usize, words: *mut u32, words_len: usize, out: *mut Assembled) -> u32;
    pub fn brsp_back(handle: *mut Machine, n: u32) -> u32;
    pub fn brsp_copy(to: *mut Machine, from: *mut Machine) -> u32;
    pub fn brsp_difference_text(found: *const Difference, text: *mut u8, capacity: usize) -> usize;
    pub fn brsp_divider(handle: *mut Machine, out: *mut DivideState) -> u32;
    pub fn brsp_drop_break(handle: *mut Machine, address: u32) -> u32;
    pub fn brsp_drop_watch(handle: *mut Machine, number: u32) -> u32;
    pub fn brsp_event(handle: *mut Machine, n: u32, reads: u32, writes: u32, out: *mut Reached) -> u32;
    pub fn brsp_explain(origin: u32, text: *const u8, text_len: usize, out: *mut Operand) -> u32;
    pub fn brsp_explain_reply(
        before: usize,
        lines: *const u8,
        lines_len: usize,
        reply: *const u8,
        reply_len: usize,
        said: *mut u8,
        said_len: usize,
        count: *mut usize,
    ) -> u32;
    pub fn brsp_explain_text(origin: u32, text: *const u8, text_len: usize, said: *mut u8, said_len: usize, count: *mut usize) -> u32;
    pub fn brsp_flags(handle: *mut Machine, out: *mut FlagBits) -> u32;
    pub fn brsp_free(handle: *mut Machine);
    pub fn brsp_get(handle: *mut Machine, out: *mut State) -> u32;
    pub fn brsp_history(handle: *mut Machine, out: *mut usize) -> u32;
    pub fn brsp_image_length(handle: *mut Machine, out: *mut usize) -> u32;
    pub fn brsp_labels(origin: u32, text: *const u8, text_len: usize, labels: *mut Label, labels_len: usize, count: *mut usize) -> u32;
    pub fn brsp_listing(handle: *mut Machine, address: u32, lines: *mut Line, lines_len: usize) -> u32;
    pub fn brsp_load(handle: *mut Machine, number: u32, address: u32, bytes: *const u8, bytes_len: usize) -> u32;
    pub fn brsp_load_state(m: *mut Machine, bytes: *const u8, length: usize) -> u32;
    pub fn brsp_load_words(handle: *mut Machine, number: u32, address: u32, words: *const u32, words_len: usize) -> u32;
    pub fn brsp_memory(handle: *mut Machine, number: u32, address: u32, bytes: *mut u8, bytes_len: usize) -> u32;
    pub fn brsp_memory_parts(bank: u32, bytes: *const u8, other: *const u8, len: usize, parts: *mut Part, capacity: usize) -> usize;
    pub fn brsp_memory_words(handle: *mut Machine, number: u32, address: u32, words: *mut u32, words_len: usize) -> u32;
    pub fn brsp_new(handle: *mut Machine, image: *const u8, image_len: usize, depth: u32) -> u32;
    pub fn brsp_operand_text(found: *const Operand, fault: u32, text: *mut u8, capacity: usize) -> usize;
    pub fn brsp_part_text(part: *const Part, here: *const u8, there: *const u8, text: *mut u8, capacity: usize) -> usize;
    pub fn brsp_pass_dma(handle: *mut Machine) -> u32;
    pub fn brsp_pass_move(handle: *mut Machine, value: u32) -> u32;
    pub fn brsp_peek(handle: *mut Machine, n: u32, out: *mut u32) -> u32;
    pub fn brsp_read(handle: *mut Machine, n: u32, out: *mut u32) -> u32;
    pub fn brsp_refusal_text(status: u32, call: *const u8, numbers: *const u8, text: *mut u8, capacity: usize) -> usize;
    pub fn brsp_reg(handle: *mut Machine, n: u32, out: *mut u32) -> u32;
    pub fn brsp_regs(handle: *mut Machine, out: *mut Scalars) -> u32;
    pub fn brsp_run(handle: *mut Machine, n: u32, out: *mut Stop) -> u32;
    pub fn brsp_run_until_move(handle: *mut Machine, n: u32, reads: u32, writes: u32, out: *mut Move) -> u32;
    pub fn brsp_save_state(m: *mut Machine, bytes: *mut u8, capacity: usize, length: *mut usize) -> u32;
    pub fn brsp_savestate_check(m: *mut Machine, bytes: *const u8, length: usize, fault: *mut u32) -> u32;
    pub fn brsp_savestate_fault_text(fault: u32) -> *const u8;
    pub fn brsp_savestate_refusal_text(bytes: *const u8, length: usize, image: usize, text: *mut u8, capacity: usize) -> usize;
    pub fn brsp_search_begin(m: *mut Machine, every: u32, limit: u32, search: *mut u8, length: usize) -> u32;
    pub fn brsp_search_bytes(image: usize) -> usize;
    pub fn brsp_search_difference(search: *const u8, found: *mut Difference);
    pub fn brsp_search_next(m: *mut Machine, search: *mut u8, request: *mut Request) -> u32;
    pub fn brsp_search_parts(search: *const u8, parts: *mut Part);
    pub fn brsp_session_end(handle: *mut Session, reply: *mut u8, reply_len: usize, written: *mut usize) -> u32;
    pub fn brsp_session_free(handle: *mut Session);
    pub fn brsp_session_memory(handle: *mut Session, number: u32, address: u32, bytes: *mut u8, bytes_len: usize) -> u32;
    pub fn brsp_session_new(handle: *mut Session, image: *const u8, image_len: usize) -> u32;
    pub fn brsp_session_take(
        handle: *mut Session,
        bytes: *const u8,
        bytes_len: usize,
        used: *mut usize,
        reply: *mut u8,
        reply_len: usize,
        written: *mut usize,
    ) -> u32;
    pub fn brsp_set(handle: *mut Machine, state: *const State) -> u32;
    pub fn brsp_set_pc(handle: *mut Machine, pc: u32) -> u32;
    pub fn brsp_set_sp(handle: *mut Machine, given: *const SpWords) -> u32;
    pub fn brsp_sp(handle: *mut Machine, out: *mut SpWords) -> u32;
    pub fn brsp_start_task(handle: *mut Machine, address: u32) -> u32;
    pub fn brsp_state_fault(state: *const State, out: *mut u32) -> u32;
    pub fn brsp_state_refusal_text(state: *const State, text: *mut u8, capacity: usize) -> usize;
    pub fn brsp_step(handle: *mut Machine) -> u32;
    pub fn brsp_step_changes(handle: *mut Machine, out: *mut Changes) -> u32;
    pub fn brsp_structure_parts(kind: u32, structure: *const u8, other: *const u8, parts: *mut Part, capacity: usize) -> usize;
    pub fn brsp_structure_text(kind: u32, structure: *const u8, text: *mut u8, capacity: usize) -> usize;
    pub fn brsp_text(word: u32, address: u32, out: *mut Line) -> u32;
    pub fn brsp_trace(handle: *mut Machine, out: *mut Traced, out_len: usize, stop: *mut Stop) -> u32;
    pub fn brsp_version() -> u32;
    pub fn brsp_vreg(handle: *mut Machine, n: u32, out: *mut Lanes) -> u32;
    pub fn brsp_word_text(word: u32, address: u32, text: *mut u8, capacity: usize) -> usize;
    pub fn brsp_write(handle: *mut Machine, n: u32, value: u32) -> u32;
    pub fn brsp_write_dma(handle: *mut Machine, n: u32, value: u32, out: *mut Dma) -> u32;
}
