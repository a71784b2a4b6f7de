/* Each call of brsp.h on a handle, except those that make what it holds or free it. NUMBER(n) is
 * its n-th number or length, and ROOM(n) the address of room for elements. tools/shapes writes this file. */
#define EACH_CALL(CALL, MACHINE, SESSION, NUMBER, ROOM) \
    CALL(brsp_acc, (MACHINE, (brsp_accumulators *)ROOM(0))) \
    CALL(brsp_add_break, (MACHINE, NUMBER(0))) \
    CALL(brsp_add_watch, (MACHINE, NUMBER(0), NUMBER(1), (size_t *)ROOM(0))) \
    CALL(brsp_back, (MACHINE, NUMBER(0))) \
    CALL(brsp_divider, (MACHINE, (brsp_divide_state *)ROOM(0))) \
    CALL(brsp_drop_break, (MACHINE, NUMBER(0))) \
    CALL(brsp_drop_watch, (MACHINE, NUMBER(0))) \
    CALL(brsp_event, (MACHINE, NUMBER(0), NUMBER(1), NUMBER(2), (brsp_reached *)ROOM(0))) \
    CALL(brsp_flags, (MACHINE, (brsp_flag_bits *)ROOM(0))) \
    CALL(brsp_get, (MACHINE, (brsp_state *)ROOM(0))) \
    CALL(brsp_history, (MACHINE, (size_t *)ROOM(0))) \
    CALL(brsp_image_length, (MACHINE, (size_t *)ROOM(0))) \
    CALL(brsp_listing, (MACHINE, NUMBER(0), (brsp_line *)ROOM(0), NUMBER(1))) \
    CALL(brsp_load, (MACHINE, NUMBER(0), NUMBER(1), (const uint8_t *)ROOM(0), NUMBER(2))) \
    CALL(brsp_load_words, (MACHINE, NUMBER(0), NUMBER(1), (const uint32_t *)ROOM(0), NUMBER(2))) \
    CALL(brsp_memory, (MACHINE, NUMBER(0), NUMBER(1), (uint8_t *)ROOM(0), NUMBER(2))) \
    CALL(brsp_memory_words, (MACHINE, NUMBER(0), NUMBER(1), (uint32_t *)ROOM(0), NUMBER(2))) \
    CALL(brsp_pass_dma, (MACHINE)) \
    CALL(brsp_pass_move, (MACHINE, NUMBER(0))) \
    CALL(brsp_peek, (MACHINE, NUMBER(0), (uint32_t *)ROOM(0))) \
    CALL(brsp_read, (MACHINE, NUMBER(0), (uint32_t *)ROOM(0))) \
    CALL(brsp_reg, (MACHINE, NUMBER(0), (uint32_t *)ROOM(0))) \
    CALL(brsp_regs, (MACHINE, (brsp_scalars *)ROOM(0))) \
    CALL(brsp_run, (MACHINE, NUMBER(0), (brsp_stop *)ROOM(0))) \
    CALL(brsp_run_until_move, (MACHINE, NUMBER(0), NUMBER(1), NUMBER(2), (brsp_move *)ROOM(0))) \
    CALL(brsp_session_end, (SESSION, (uint8_t *)ROOM(0), NUMBER(0), (size_t *)ROOM(1))) \
    CALL(brsp_session_memory, (SESSION, NUMBER(0), NUMBER(1), (uint8_t *)ROOM(0), NUMBER(2))) \
    CALL(brsp_session_take, (SESSION, (const uint8_t *)ROOM(0), NUMBER(0), (size_t *)ROOM(1), (uint8_t *)ROOM(2), NUMBER(1), (size_t *)ROOM(3))) \
    CALL(brsp_set, (MACHINE, (const brsp_state *)ROOM(0))) \
    CALL(brsp_set_pc, (MACHINE, NUMBER(0))) \
    CALL(brsp_set_sp, (MACHINE, (const brsp_sp_words *)ROOM(0))) \
    CALL(brsp_sp, (MACHINE, (brsp_sp_words *)ROOM(0))) \
    CALL(brsp_start_task, (MACHINE, NUMBER(0))) \
    CALL(brsp_step, (MACHINE)) \
    CALL(brsp_step_changes, (MACHINE, (brsp_changes *)ROOM(0))) \
    CALL(brsp_trace, (MACHINE, (brsp_traced *)ROOM(0), NUMBER(0), (brsp_stop *)ROOM(1))) \
    CALL(brsp_vreg, (MACHINE, NUMBER(0), (brsp_lanes *)ROOM(0))) \
    CALL(brsp_write, (MACHINE, NUMBER(0), NUMBER(1))) \
    CALL(brsp_write_dma, (MACHINE, NUMBER(0), NUMBER(1), (brsp_dma *)ROOM(0)))
