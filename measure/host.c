/* host NAME N: makes the calls of a row of measure.host N times, as the CPU of a console would make them, on a machine with 8 MB of RDRAM and
 * a history of 0. `owner` rows keep RDRAM themselves. Under `valgrind --tool=callgrind` the difference of two N, divided by the difference of
 * the N, is what the row takes in host instructions, with those of the loop here. */
#include "brsp.h"
#include <stdio.h>
#include <stdlib.h>
#include <string.h>

enum { RDRAM = 8 << 20, TASK = 0x1000, BOOT = 0x2000 };

static brsp_machine m = BRSP_NONE;
static uint8_t rdram[RDRAM], bytes[4096];
static uint32_t words[1024], word, status;
static brsp_stop stop;
static brsp_reached event;

static const char six[] = "loop: addiu $1, $1, 1\naddu $2, $1, $2\nsw $2, 0x40($0)\nlw $3, 0x40($0)\nj loop\naddiu $4, $4, 1\n";
/* A task of six instructions with a DMA of 256 bytes. */
static const char transfer[] = "ori $1, $0, 0xff\nmtc0 $0, $c0\nmtc0 $1, $c1\nmtc0 $1, $c2\nnop\nbreak\n";

static void put_word(uint8_t *to, uint32_t value)
{
    to[0] = (uint8_t)(value >> 24);
    to[1] = (uint8_t)(value >> 16);
    to[2] = (uint8_t)(value >> 8);
    to[3] = (uint8_t)value;
}

/* Puts a task with this boot code at TASK of RDRAM; `length` is its least length. */
static size_t put_task(const char *text, uint32_t length)
{
    brsp_assembled out;
    size_t i;
    if (brsp_assemble(0, (const uint8_t *)text, strlen(text), words, 1024, &out) != BRSP_OK) exit(2);
    for (i = 0; i < out.count; i++) put_word(rdram + BOOT + 4 * i, words[i]);
    if (length < 4 * out.count) length = (uint32_t)(4 * out.count);
    put_word(rdram + TASK + 8, BOOT);
    put_word(rdram + TASK + 12, length);
    return out.count;
}

/* ---- a host that owns RDRAM ---- */

static void move_bytes(const brsp_dma *dma)
{
    uint32_t row, done, part, sp = dma->address, from = dma->rdram;
    for (row = 0; row < dma->rows; row++, from += dma->length + dma->skip) {
        for (done = 0; done < dma->length; done += part, sp = (sp + part) % 4096) {
            part = dma->length - done < 4096 - sp ? dma->length - done : 4096 - sp;
            if (dma->to_rdram) status |= brsp_memory(&m, dma->bank, sp, rdram + from + done, part);
            else status |= brsp_load(&m, dma->bank, sp, rdram + from + done, part);
        }
    }
}

static void owner_start(void)
{
    status |= brsp_load(&m, BRSP_DMEM, 0xfc0, rdram + TASK, 64) | brsp_load(&m, BRSP_IMEM, 0, rdram + BOOT, 100);
    status |= brsp_set_pc(&m, 0) | brsp_write(&m, 4, 0x2b05 /* clear halted, broke and signals 0 to 2, set intbreak */);
}

static void owner_task_once(void)
{
    uint32_t left;
    owner_start();
    for (left = 1000; left; left -= event.at.stop.steps + 1) {
        status |= brsp_event(&m, left, 0, 0, &event);
        if (event.at.stop.reason != BRSP_AT_DMA) break;
        status |= brsp_pass_dma(&m);
        move_bytes(&event.dma);
    }
}

/* The rows: each makes its calls n times. */
#define ROW(name, calls) static void name(long n) { for (; n; n--) calls; }
ROW(read_status, status |= brsp_read(&m, 4, &word))
ROW(write_status, status |= brsp_write(&m, 4, 0x400))
ROW(dma_8, status |= brsp_write(&m, 2, 7))
ROW(owner_dma_8, status |= brsp_write_dma(&m, 2, 7, &event.dma))
ROW(dma_4096, status |= brsp_write(&m, 2, 0xfff))
ROW(dma_rows, status |= brsp_write(&m, 2, 0x0180f007))
ROW(dma_three, status |= brsp_write(&m, 0, 0) | brsp_write(&m, 1, 0x4000) | brsp_write(&m, 2, 7))
ROW(dmem_word, status |= brsp_memory(&m, BRSP_DMEM, 0x40, bytes, 4))
ROW(load_bytes, status |= brsp_load(&m, BRSP_DMEM, 0, bytes, 4096))
ROW(load_words, status |= brsp_load_words(&m, BRSP_DMEM, 0, words, 1024))
ROW(memory_words, status |= brsp_memory_words(&m, BRSP_DMEM, 0, words, 1024))
ROW(run_six, status |= brsp_run(&m, 6, &stop))
ROW(run_one, status |= brsp_run(&m, 1, &stop))
ROW(run_halted, status |= brsp_run(&m, 1000, &stop))
ROW(start_task, status |= brsp_start_task(&m, TASK))
ROW(task, status |= brsp_start_task(&m, TASK) | brsp_run(&m, 1000, &stop))
ROW(owner_task, owner_task_once())

static const struct {
    const char *name, *text;
    uint32_t length;
    void (*made)(long n);
} rows[] = {
    { "read-status", six, 100, read_status }, { "write-status", six, 100, write_status },
    { "dma-8", six, 100, dma_8 }, { "dma-4096", six, 100, dma_4096 }, { "dma-rows", six, 100, dma_rows }, { "dma-three", six, 100, dma_three },
    { "start-task", "break\n", 100, start_task }, { "run-six", six, 100, run_six }, { "run-one", six, 100, run_one },
    { "run-halted", "break\n", 100, run_halted }, { "empty-task", "break\n", 100, task }, { "task-dma", transfer, 100, task },
    { "dmem-word", six, 100, dmem_word },
    { "load-bytes", six, 100, load_bytes }, { "load-words", six, 100, load_words }, { "memory-words", six, 100, memory_words },
    { "owner-dma-8", six, 100, owner_dma_8 },
    { "owner-empty-task", "break\n", 100, owner_task }, { "owner-task-dma", transfer, 100, owner_task },
};

int main(int argc, char **argv)
{
    size_t i = 0;
    if (argc != 3) return 2;
    while (i < sizeof rows / sizeof *rows && strcmp(rows[i].name, argv[1])) i++;
    if (i == sizeof rows / sizeof *rows) return 2;
    put_task(rows[i].text, rows[i].length);
    if (brsp_new(&m, rdram, sizeof rdram, 0) != BRSP_OK) return 2;
    status = brsp_start_task(&m, TASK) | brsp_run(&m, 1000, &stop) | brsp_write(&m, 4, strcmp(rows[i].name, "run-halted") ? 1 : 2) | brsp_write(&m, 1, 0x4000);
    rows[i].made(atol(argv[2]));
    brsp_free(&m);
    return (int)status;
}
