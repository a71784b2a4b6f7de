/* script PIECE IMAGE SAVED: answers the script on standard input by a session, as `rsp run --rdram IMAGE --save
 * SAVED` does. A call gets at most PIECE bytes, or 1 to 97 in a fixed disorder if PIECE is 0. Some calls in
 * between are refused, which must change nothing. The status is that of `rsp run`, or above 2 if a call does
 * otherwise than brsp.h says. */
#include "brsp.h"
#include <stdio.h>
#include <stdlib.h>
#include <string.h>

static uint8_t image[8388608], script[1048577 + 16], reply[BRSP_REPLIES + 1];
static brsp_session b = BRSP_NONE;
static size_t used, written;

static void need(int is_right, int status)
{
    if (!is_right) exit(status);
}

static size_t content(const char *name, uint8_t *bytes, size_t most)
{
    FILE *file = name ? fopen(name, "rb") : stdin;
    size_t len = file ? fread(bytes, 1, most, file) : 0;
    need(file != NULL, 3);
    if (name) fclose(file);
    return len;
}

/* A buffer that is a byte too short: the reply isn't lost, since nothing is done. */
static void refused(const uint8_t *bytes, size_t len)
{
    used = written = 77;
    memset(reply, 0x55, sizeof reply);
    need(brsp_session_take(&b, bytes, len, &used, reply, BRSP_REPLIES - 1, &written) == BRSP_NO_ROOM, 4);
    need(brsp_session_end(&b, reply, 0, &written) == BRSP_NO_ROOM, 5);
    need(used == 77 && written == 77, 5);
    need(reply[0] == 0x55 && reply[BRSP_REPLIES] == 0x55, 6);
}

/* What follows the reply in the buffer is as it was. */
static void show(void)
{
    need(written <= BRSP_REPLIES && reply[written] == 0x55, 7);
    fwrite(reply, 1, written, stdout);
}

static int too_long(void)
{
    need(brsp_session_take(&b, script, 0, &used, reply, sizeof reply, &written) == BRSP_TOO_LONG, 8);
    need(brsp_session_end(&b, reply, sizeof reply, &written) == BRSP_TOO_LONG, 9);
    fputs("rsp: fault 42 ScriptTooLong\n", stderr);
    return 1;
}

static void save(const char *name, size_t len)
{
    FILE *file = fopen(name, "wb");
    need(file != NULL, 10);
    need(brsp_session_memory(&b, BRSP_RDRAM, 0, image, len) == BRSP_OK, 11);
    need(brsp_session_memory(&b, BRSP_RDRAM, 8, image, len) == BRSP_OUT_OF_RANGE, 11);
    need(fwrite(image, 1, len, file) == len && fclose(file) == 0, 12);
}

int main(int argc, char **argv)
{
    size_t piece = argc > 1 ? strtoul(argv[1], NULL, 10) : 0, seed = 1, at = 0, n, len, size;
    need(argc == 4, 2);
    size = content(argv[2], image, sizeof image);
    len = content(NULL, script, sizeof script);
    if (brsp_session_new(&b, image, size) == BRSP_OUT_OF_RANGE) {
        fputs("rsp: fault 7 SizeFault\n", stderr);
        return 1;
    }
    need(b.at != NULL, 13);
    for (; at < len; at += used) {
        seed = seed * 48271 % 2147483647;
        n = piece ? piece : 1 + seed % 97;
        if (n > len - at) n = len - at;
        if (seed % 61 == 0) refused(script + at, n);
        memset(reply, 0x55, sizeof reply);
        switch (brsp_session_take(&b, script + at, n, &used, reply, BRSP_REPLIES, &written)) {
        case BRSP_OK: break;
        case BRSP_TOO_LONG: return too_long();
        default: return 14;
        }
        need(used > 0 && used <= n && memchr(script + at, '\n', used - 1) == NULL, 15);
        show();
    }
    refused(script, len);
    memset(reply, 0x55, sizeof reply);
    need(brsp_session_end(&b, reply, sizeof reply, &written) == BRSP_OK, 16);
    show();
    need(brsp_session_end(&b, reply, sizeof reply, &written) == BRSP_ENDED, 17);
    need(brsp_session_take(&b, script, 1, &used, reply, sizeof reply, &written) == BRSP_ENDED, 18);
    save(argv[3], size);
    brsp_session_free(&b);
    need(brsp_session_take(&b, script, 1, &used, reply, sizeof reply, &written) == BRSP_NO_MACHINE, 19);
    need(b.at == NULL, 20);
    return 0;
}
