/* runner [--strict] FILE..: runs the test vectors of `flat`, and prints for each case that differs its first difference, and at the end how many cases
 * of each instruction failed, and were skipped because brsp_step returned BRSP_RESERVED. The status is 0 if none failed and one passed, otherwise 1;
 * with --strict also if one was skipped; 2 if a file is refused because it has something else. To test another machine, link its brsp_new, brsp_free, brsp_load, brsp_memory, brsp_set, brsp_get and brsp_step instead of the library,
 * and compile library/c/helpers/texts.c with it. */
#include "brsp_helpers.h"
#include <stdio.h>
#include <string.h>

typedef struct { uint32_t size, word, has_choice; char name[16]; uint32_t pieces; } head;
typedef struct { uint32_t is_after, bank, address, length; } piece; /* its bytes follow, up to a multiple of 4 */
typedef struct { const uint8_t *at, *end; } rest;                   /* the bytes that nobody has taken yet */

enum { RDRAM_LENGTH = 1 << 17, LONGEST_FILE = 1 << 24 };
static uint8_t expected[8192 + RDRAM_LENGTH], found[8192 + RDRAM_LENGTH];
static char text[128]; /* of the case's instruction: bank 3 */

enum { FAILED = 1, SKIPPED = 2, NO_CASE = -1, LOST = -2 }; /* what becomes of a case, other than 0 if it passes */
/* How many cases of an instruction failed, and were skipped. The last one is of all instructions for which there is no room. */
static struct { char name[sizeof((head *)0)->name + 1]; uint32_t counts[SKIPPED + 1]; } tallies[256];

static void count_case(const char *name, int what)
{
    enum { LAST = sizeof tallies / sizeof *tallies - 1 };
    char instruction[sizeof tallies->name] = "";
    memcpy(instruction, name, sizeof instruction - 1);
    if (strrchr(instruction, '-')) *strrchr(instruction, '-') = 0;
    size_t at = 0;
    while (at < LAST && *tallies[at].name && strcmp(tallies[at].name, instruction) != 0) at++;
    memcpy(tallies[at].name, at < LAST ? instruction : "others", at < LAST ? sizeof instruction : sizeof "others");
    tallies[at].counts[what]++;
}

static uint32_t total(int what)
{
    uint32_t sum = 0;
    for (size_t at = 0; at < sizeof tallies / sizeof *tallies; at++) sum += tallies[at].counts[what];
    return sum;
}

static uint32_t length_of(uint32_t bank) { return bank < 2 ? 4096 : bank == 2 ? RDRAM_LENGTH : sizeof text - 1; }

/* The first bytes of a name. What isn't printable ASCII is shown as `\x` and two digits, so that a terminal obeys no file. */
static const char *shown(const char *name, size_t most)
{
    static char told[1 << 14];
    size_t at = 0;
    for (; most-- && *name && at < sizeof told - 5; name++) at += (size_t)sprintf(told + at, *name < ' ' || *name > '~' ? "\\x%02x" : "%c", (unsigned char)*name);
    told[at] = 0;
    return told;
}

/* Takes the next bytes. Returns 0 if there aren't so many. */
static int take(rest *r, void *to, size_t length)
{
    if ((size_t)(r->end - r->at) < length) return 0;
    memcpy(to, r->at, length);
    r->at += length;
    return 1;
}

/* Puts the pieces before a case, or those after it, into `expected`, and its text into `text`. Returns 0 if a piece passes the end of its memory, or
 * if they don't fill the case. */
static int put_pieces(rest from, uint32_t count, uint32_t is_after)
{
    static uint8_t unused[RDRAM_LENGTH];
    while (count--) {
        piece p;
        if (!take(&from, &p, sizeof p) || p.is_after > 1 || p.bank > 3 || p.address > length_of(p.bank) || p.length > length_of(p.bank) - p.address) return 0;
        uint8_t *to = p.bank == 3 ? (uint8_t *)text : expected + 4096 * p.bank;
        if (!take(&from, p.is_after == is_after ? to + p.address : unused, p.length) || !take(&from, unused, -p.length & 3)) return 0;
    }
    return from.at == from.end;
}

/* Prints the operands of a computing instruction: of its lane that differs, for flags the lowest; of a divide instruction its source. */
static void print_operands(uint32_t word, const brsp_state *before, const brsp_part *part)
{
    unsigned e = word >> 21 & 15, lane = 0, bits = (unsigned)(part->value[1] ^ part->other[1]);
    const uint16_t *vs = before->vectors[word >> 11 & 31], *vt = before->vectors[word >> 16 & 31];
    if (word >> 25 != 0x25 || (word & 63) > 0x36) return;
    if ((word & 63) >= 0x30) {
        printf("; source %04x", vt[e & 7]);
        return;
    }
    if (*part->name == 'v') while (!((bits | bits >> 8) >> lane & 1)) lane++;
    else if (sscanf(part->name, "$v%*u lane %u", &lane) != 1 && sscanf(part->name, "accumulator %u", &lane) != 1) return;
    printf("; lane %u, a %04x, b %04x", lane, vs[lane], vt[e < 2 ? lane : e < 4 ? (lane & 6) + e - 2 : e < 8 ? (lane & 4) + e - 4 : e - 8]);
}

/* The first part in which the machine isn't as `before` and `expected` are, which it was given; NULL if there is none. */
static const brsp_part *first_lost(brsp_machine *m, const brsp_state *before)
{
    static brsp_part parts[BRSP_PARTS];
    brsp_state got;
    size_t count = brsp_get(m, &got) == BRSP_OK ? brsp_structure_parts(BRSP_OF_STATE, before, &got, parts, BRSP_PARTS) : 0;
    for (uint32_t bank = 0; bank < 3 && !count; bank++) {
        brsp_memory(m, bank, 0, found + 4096 * bank, length_of(bank));
        count = brsp_memory_parts(bank, expected + 4096 * bank, found + 4096 * bank, length_of(bank), parts, 1);
    }
    return count ? parts : NULL;
}

static void print_counts(const char *what, int which)
{
    const char *between = ": ";
    if (!total(which)) return;
    printf("%s", what);
    for (size_t at = 0; at < sizeof tallies / sizeof *tallies; at++) {
        if (!tallies[at].counts[which]) continue;
        printf("%s%u of %s", between, tallies[at].counts[which], shown(tallies[at].name, sizeof tallies->name));
        between = ", ";
    }
    printf("\n");
}

/* Runs the case that comes next, and takes it. Returns what becomes of it. */
static int run(brsp_machine *m, rest *file)
{
    static brsp_part parts[BRSP_PARTS + sizeof found / 16];
    brsp_state before, after, got;
    head h;
    rest r = *file;
    if (!take(&r, &h, sizeof h) || h.has_choice > 1 || h.size < sizeof h || h.size > (size_t)(file->end - file->at)) return NO_CASE;
    file->at = r.end = file->at + h.size;
    if (!take(&r, &before, sizeof before) || !take(&r, &after, sizeof after)) return NO_CASE;
    memset(expected, 0, sizeof expected);
    memset(text, 0, sizeof text);
    if (!put_pieces(r, h.pieces, 0)) return NO_CASE;
    for (uint32_t bank = 0; bank < 3; bank++) brsp_load(m, bank, 0, expected + 4096 * bank, length_of(bank));
    static int is_checked;
    int is_set = brsp_set(m, &before) == BRSP_OK;
    const brsp_part *lost = is_set && !is_checked++ ? first_lost(m, &before) : NULL;
    if (lost) return fprintf(stderr, "the machine doesn't keep what brsp_set and brsp_load gave it, before any step: %.23s\n", lost->name), LOST;
    put_pieces(r, h.pieces, 1);
    uint32_t status = is_set ? brsp_step(m) : BRSP_OUT_OF_RANGE;
    count_case(h.name, 0);
    if (status == BRSP_RESERVED) return count_case(h.name, SKIPPED), SKIPPED;
    int is_made = status == BRSP_OK && brsp_get(m, &got) == BRSP_OK;
    size_t count = brsp_structure_parts(BRSP_OF_STATE, &after, &got, parts, BRSP_PARTS);
    for (uint32_t bank = 0; bank < 3; bank++) {
        const uint8_t *here = expected + 4096 * bank;
        uint8_t *there = found + 4096 * bank;
        brsp_memory(m, bank, 0, there, length_of(bank));
        count += brsp_memory_parts(bank, here, there, length_of(bank), parts + count, length_of(bank) / 16);
    }
    if (is_made && !count) return 0;
    count_case(h.name, FAILED);
    printf("%s (", shown(h.name, sizeof h.name));
    printf("%s%s", shown(text, sizeof text), h.has_choice ? ", choice" : "");
    if (is_made) print_operands(h.word, &before, parts);
    int high = parts->digits > 16 ? 16 : 0, low = high ? 16 : (int)parts->digits; /* the digits of a value's two halves */
    unsigned long long a = parts->value[0], b = parts->value[1], c = parts->other[0], d = parts->other[1];
    if (is_made) printf("), %.23s: expected %.*llx%0*llx, got %.*llx%0*llx%s\n", parts->name, high, a, low, b, high, c, low, d, count > 1 ? ", and more" : "");
    else printf("), isn't executed\n");
    return FAILED;
}

/* Runs the cases of a file. Returns 0 if it is refused. */
static int run_file(brsp_machine *m, const char *path)
{
    static uint8_t data[LONGEST_FILE];
    FILE *file = fopen(path, "rb");
    rest r = { data, data + (file ? fread(data, 1, sizeof data, file) : 0) };
    int is_longer = file && fgetc(file) != EOF;
    char magic[12];
    uint32_t number;
    if (!file) return fprintf(stderr, "%s can't be read\n", shown(path, strlen(path))), 0;
    fclose(file);
    if (is_longer) return fprintf(stderr, "%s has more than %d bytes\n", shown(path, strlen(path)), LONGEST_FILE), 0;
    if (!take(&r, magic, sizeof magic) || memcmp(magic, "RSPCASES\2\0\0", sizeof magic) != 0 || !take(&r, &number, sizeof number))
        return fprintf(stderr, "%s has no flat vectors\n", shown(path, strlen(path))), 0;
    for (uint32_t k = 1; k <= number; k++) {
        int what = run(m, &r);
        if (what == LOST) return 0;
        if (what == NO_CASE) return fprintf(stderr, "%s: case %u of %u isn't whole, or has what no case has\n", shown(path, strlen(path)), k, number), 0;
    }
    if (r.at != r.end) return fprintf(stderr, "%s has bytes after its last case\n", shown(path, strlen(path))), 0;
    return 1;
}

int main(int count, char **words)
{
    brsp_machine m = BRSP_NONE;
    int is_refused = brsp_new(&m, found + 8192, RDRAM_LENGTH, 0) != BRSP_OK, is_strict = 0;
    for (int i = 1; i < count && !is_refused; i++)
        if (!strcmp(words[i], "--strict")) is_strict = 1;
        else is_refused = !run_file(&m, words[i]);
    brsp_free(&m);
    if (is_refused) return 2;
    uint32_t failed = total(FAILED), skipped = total(SKIPPED), passed = total(0) - failed - skipped;
    printf("%u passed, %u failed", passed, failed);
    if (skipped) printf(", %u skipped", skipped);
    printf("\n");
    print_counts("failed", FAILED);
    print_counts("skipped", SKIPPED);
    if (fflush(stdout) || ferror(stdout)) return fprintf(stderr, "standard output takes no more\n"), 2;
    return failed || !passed || (is_strict && skipped);
}
