/** The calls, structs and numbers of the headers in library/c. `tools/shapes` writes this file. */

/** Numbers by their names, and names by their numbers. */
function numbered(numbers) {
  const names = Object.fromEntries(Object.entries(numbers).map(([name, number]) => [number, name]));
  return Object.freeze({ ...numbers, ...names });
}

export const REPLIES = 16384;
export const SAVESTATE_VERSION = 1;
export const SAVESTATE_BYTES = 8976;
export const PARTS = 321;
export const NO_BANK = 3;

export const Status = numbered({
  OK: 0, NO_MACHINE: 101, NO_MEMORY: 102, OUT_OF_RANGE: 103, HALTED: 104, RESERVED: 105, NO_MEANING: 106,
  TASK_PLACE: 107, TASK_SIZE: 108, BREAK_FULL: 109, BREAK_TWICE: 110, NO_BREAK: 111, WATCH_FULL: 112, NO_WATCH: 113,
  SHORT_HISTORY: 114, NO_ROOM: 115, ENDED: 116, TOO_LONG: 117, OTHER_WORD: 118,
});

export const Fault = numbered({
  BAD_LINE: 10, UNKNOWN_NAME: 11, BAD_OPERAND: 12, OUT_OF_RANGE: 13, LABEL_TWICE: 14, LABEL_MISSING: 15, PAST_END: 16,
  OUT_OF_MEMORY: 17, NOT_TEXT: 33,
});

export const Bank = numbered({
  DMEM: 0, IMEM: 1, RDRAM: 2,
});

export const Reason = numbered({
  RESERVED: 0, HALT: 1, WATCH: 2, BREAK: 3, LIMIT: 4, MOVE: 5, DMA: 6, INTERRUPT: 7, STATUS: 8,
});

export const Field = numbered({
  ZERO: 1, LOADED: 2, PC: 3, NPC: 4, INTERRUPT: 5, SP: 16,
});

export const SavestateFault = numbered({
  FINE: 0, MAGIC: 1, OTHER_VERSION: 2, LENGTH: 3, IMAGE: 4, STATE: 5,
});

export const Structure = numbered({
  STATE: 0, SCALARS: 1, ACCUMULATORS: 2, FLAGS: 3, DIVIDER: 4, SP: 5, TRACED: 6, CHANGES: 7,
});

export const RequestKind = numbered({
  OVER: 0, RUN: 1, SET: 2, LOAD: 3, GET: 4, MEMORY: 5,
});

/** Each struct's fields: the name, the kind, and an array's lengths, the outer one first. */
export const STRUCTS = {
  brsp_traced: [
    ["word", "u32"], ["value", "u32"], ["pc", "u16"], ["address", "u16"], ["vco", "u16"], ["vcc", "u16"], ["vce", "u8"],
    ["scalar", "u8"], ["vector", "u8"], ["stored", "u8"], ["lanes", "u16", 8],
  ],
  brsp_dma: [
    ["bank", "u32"], ["address", "u32"], ["rdram", "u32"], ["length", "u32"], ["rows", "u32"], ["skip", "u32"],
    ["to_rdram", "u32"],
  ],
  brsp_label: [
    ["address", "u16"], ["len", "u16"], ["name", "u8", 36],
  ],
  brsp_stop: [
    ["reason", "u32"], ["steps", "u32"], ["watch", "u64"], ["pc", "u16"], ["word", "u32"],
  ],
  brsp_move: [
    ["stop", "brsp_stop"], ["word", "u32"], ["number", "u32"], ["writes", "u32"], ["value", "u32"],
  ],
  brsp_scalars: [
    ["words", "u32", 32], ["pc", "u16"], ["npc", "u16"],
  ],
  brsp_lanes: [
    ["lanes", "u16", 8],
  ],
  brsp_accumulators: [
    ["high", "u16", 8], ["middle", "u16", 8], ["low", "u16", 8],
  ],
  brsp_flag_bits: [
    ["carry", "u8"], ["differ", "u8"], ["compare", "u8"], ["clip", "u8"], ["extra", "u8"],
  ],
  brsp_divide_state: [
    ["input", "u16"], ["output", "u16"], ["loaded", "u16"],
  ],
  brsp_state: [
    ["words", "u32", 32], ["vectors", "u16", 32, 8], ["accumulators", "brsp_accumulators"], ["flags", "brsp_flag_bits"],
    ["zero", "u8"], ["divider", "brsp_divide_state"], ["pc", "u16"], ["npc", "u16"], ["sp", "u32", 16],
    ["interrupt", "u32"],
  ],
  brsp_sp_words: [
    ["words", "u32", 16], ["interrupt", "u32"],
  ],
  brsp_assembled: [
    ["count", "u64"], ["line", "u64"], ["fault", "u32"],
  ],
  brsp_line: [
    ["word", "u32"], ["address", "u16"], ["len", "u16"], ["text", "u8", 68],
  ],
  brsp_operand: [
    ["low", "i64"], ["high", "i64"], ["number", "u64"], ["kind", "u32"], ["step", "u32"],
  ],
  brsp_changes: [
    ["traced", "brsp_traced"], ["pc", "u16"], ["npc", "u16"], ["divider", "brsp_divide_state"], ["quadword", "u16"],
    ["accumulators", "brsp_accumulators"], ["bytes", "u8", 2, 16],
  ],
  brsp_reached: [
    ["at", "brsp_move"], ["dma", "brsp_dma"], ["status", "u32"], ["interrupt", "u32"],
  ],
  brsp_part: [
    ["name", "u8", 24], ["value", "u64", 2], ["other", "u64", 2], ["digits", "u32"], ["bank", "u32"],
    ["address", "u32"], ["number", "u32"],
  ],
  brsp_request: [
    ["kind", "u32"], ["steps", "u32"], ["bank", "u32"], ["address", "u32"], ["at", "u64"], ["len", "u64"],
  ],
  brsp_difference: [
    ["step", "u32"], ["steps", "u32"], ["line", "brsp_line"], ["before", "brsp_state"], ["parts", "u64"],
    ["count", "u64"],
  ],
};

export const CALLS = [
  "brsp_acc", "brsp_add_break", "brsp_add_watch", "brsp_argument_name", "brsp_assemble", "brsp_back", "brsp_copy",
  "brsp_difference_text", "brsp_divider", "brsp_drop_break", "brsp_drop_watch", "brsp_event", "brsp_explain",
  "brsp_explain_reply", "brsp_explain_text", "brsp_flags", "brsp_free", "brsp_get", "brsp_history", "brsp_image_length",
  "brsp_labels", "brsp_listing", "brsp_load", "brsp_load_state", "brsp_load_words", "brsp_memory", "brsp_memory_parts",
  "brsp_memory_words", "brsp_new", "brsp_operand_text", "brsp_part_text", "brsp_pass_dma", "brsp_pass_move",
  "brsp_peek", "brsp_read", "brsp_refusal_text", "brsp_reg", "brsp_regs", "brsp_run", "brsp_run_until_move",
  "brsp_save_state", "brsp_savestate_check", "brsp_savestate_fault_text", "brsp_savestate_refusal_text",
  "brsp_search_begin", "brsp_search_bytes", "brsp_search_difference", "brsp_search_next", "brsp_search_parts",
  "brsp_session_end", "brsp_session_free", "brsp_session_memory", "brsp_session_new", "brsp_session_take", "brsp_set",
  "brsp_set_pc", "brsp_set_sp", "brsp_sp", "brsp_start_task", "brsp_state_fault", "brsp_state_refusal_text",
  "brsp_step", "brsp_step_changes", "brsp_structure_parts", "brsp_structure_text", "brsp_text", "brsp_trace",
  "brsp_version", "brsp_vreg", "brsp_word_text", "brsp_write", "brsp_write_dma",
];
