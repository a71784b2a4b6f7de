/* driver PLUGIN: an emulator that only has the plugin interface of mupen64plus. It reads commands from its standard input, a line each:
 *   version HEX                  the version of the configuration interface that it has
 *   option NAME VALUE            a value of the user's configuration
 *   small                        the list of ROMs says that this one runs without the expansion pack
 *   rdp                          a list moves DPC_START and DPC_CURRENT to its end, as graphics plugins do
 *   start, shutdown, initiate, close     the plugin's calls
 *   about                        what PluginGetVersion says
 *   cycles N                     DoRspCycles; `cycles! N` calls it in a thread of its own
 *   ends N                       DoRspCycles, and how the task ends: halted, waiting after fewer than N instructions, or running
 *   tasks N                      N times: pc 0, status 0, DoRspCycles without a limit; the sum of the steps
 *   file BANK ADDRESS FILE       bytes of a file into a memory: rdram, dmem or imem
 *   put BANK ADDRESS WORD..      words into a memory
 *   get BANK ADDRESS N           shows N words
 *   hash                         a number that all bytes of all memories make
 *   set NAME VALUE, registers    SP and DPC registers, SP_PC and MI_INTR
 *   called                       how often the plugin called CheckInterrupts, ProcessDlistList, ProcessAlistList, ProcessRdpList
 * Numbers are hexadecimal, but for N. Messages of the plugin are shown as they come, after `message` and their level. */
#define _GNU_SOURCE
#include "mupen64plus.h"
#include <dlfcn.h>
#include <pthread.h>
#include <stdint.h>
#include <stdio.h>
#include <stdlib.h>
#include <string.h>

enum { REGISTERS = 18, OPTIONS = 16 };
static const char *const names[REGISTERS] = { "MI_INTR", "SP_MEM_ADDR", "SP_DRAM_ADDR", "SP_RD_LEN", "SP_WR_LEN", "SP_STATUS", "SP_DMA_FULL",
    "SP_DMA_BUSY", "SP_PC", "SP_SEMAPHORE", "DPC_START", "DPC_END", "DPC_CURRENT", "DPC_STATUS", "DPC_CLOCK", "DPC_BUFBUSY", "DPC_PIPEBUSY", "DPC_TMEM" };
static uint32_t *rdram, sp[2048];
static unsigned registers[REGISTERS], version = 0x020301, called[4];
static int is_small;
static struct { char name[32], value[256]; } chosen[OPTIONS];
static int n_chosen;

static void check_interrupts(void) { called[0]++; }
static void display_list(void) { called[1]++; }
static void audio_list(void) { called[2]++; }
static int has_rdp;
static void rdp_list(void) /* shows the first word of the list */
{
    printf("list %08x\n", (registers[13] & 1 ? sp : rdram)[registers[10] / 4 & 0x1fffff]);
    called[3]++;
    if (has_rdp) registers[10] = registers[12] = registers[11];
}
static void message(void *context, int level, const char *text) { (void)context; printf("message %d %s\n", level, text); fflush(stdout); }

/* The emulator's side of the interface. A value is the user's, if there is one, and else the plugin's default. */
static char defaults[OPTIONS][2][256];
static int n_defaults;

static const char *value_of(const char *name)
{
    for (int i = n_chosen - 1; i >= 0; i--) if (!strcmp(chosen[i].name, name)) return chosen[i].value;
    for (int i = 0; i < n_defaults; i++) if (!strcmp(defaults[i][0], name)) return defaults[i][1];
    return "";
}

void CoreGetAPIVersions(int *config, int *debug, int *video, int *more) { (void)debug; (void)video; (void)more; *config = (int)version; }
int ConfigOpenSection(const char *name, void **section) { *section = (void *)name; return 0; }
int ConfigSaveSection(const char *name) { return printf("saved %s\n", name), 0; }
int ConfigGetParameter(void *section, const char *name, int type, void *value, int size) /* there is one of each option that was chosen */
{
    (void)section; (void)type; (void)value; (void)size;
    return *value_of(name) ? 0 : 1;
}
int ConfigSetDefaultFloat(void *section, const char *name, float value, const char *help) { (void)section; (void)name; (void)value; (void)help; return 0; }
int ConfigSetDefaultString(void *section, const char *name, const char *value, const char *help)
{
    (void)section; (void)help;
    snprintf(defaults[n_defaults][0], 256, "%s", name);
    snprintf(defaults[n_defaults][1], 256, "%s", value);
    n_defaults += n_defaults < OPTIONS - 1;
    return 0;
}
int ConfigSetDefaultInt(void *section, const char *name, int value, const char *help)
{
    char text[16];
    snprintf(text, sizeof text, "%d", value);
    return ConfigSetDefaultString(section, name, text, help);
}
int ConfigSetDefaultBool(void *section, const char *name, int value, const char *help) { return ConfigSetDefaultInt(section, name, value, help); }
int ConfigGetParamInt(void *section, const char *name) { (void)section; return atoi(value_of(name)); }
int ConfigGetParamBool(void *section, const char *name) { return ConfigGetParamInt(section, name); }
int CoreDoCommand(int command, int number, void *pointer)
{
    if (command != M64_ROM_GET_SETTINGS || number <= M64_SETTINGS_WITHOUT_PACK) return 1;
    ((unsigned char *)pointer)[M64_SETTINGS_WITHOUT_PACK] = (unsigned char)is_small;
    return 0;
}
const char *ConfigGetParamString(void *section, const char *name) /* the text is gone with the next call */
{
    static char *given;
    (void)section;
    if (given) memset(given, '?', strlen(given)), free(given);
    return given = strdup(value_of(name));
}

static struct {
    int (*startup)(void *, void *, m64p_message *), (*shutdown)(void), (*get_version)(int *, int *, int *, const char **, int *);
    void (*initiate)(m64p_rsp_info, unsigned *), (*close)(void);
    unsigned (*cycles)(unsigned);
} plugin;

static int load(const char *path)
{
    void *file = dlopen(path, RTLD_NOW | RTLD_LOCAL);
    if (!file) return puts(dlerror()), 0;
    *(void **)&plugin.startup = dlsym(file, "PluginStartup");
    *(void **)&plugin.shutdown = dlsym(file, "PluginShutdown");
    *(void **)&plugin.get_version = dlsym(file, "PluginGetVersion");
    *(void **)&plugin.initiate = dlsym(file, "InitiateRSP");
    *(void **)&plugin.cycles = dlsym(file, "DoRspCycles");
    *(void **)&plugin.close = dlsym(file, "RomClosed");
    return plugin.startup && plugin.shutdown && plugin.get_version && plugin.initiate && plugin.cycles && plugin.close;
}

static void initiate(void)
{
    unsigned *r = registers, cycles = 1;
    m64p_rsp_info info = { (void *)rdram, (void *)sp, (void *)(sp + 1024), r, r + 1, r + 2, r + 3, r + 4, r + 5, r + 6, r + 7, r + 8, r + 9, r + 10,
        r + 11, r + 12, r + 13, r + 14, r + 15, r + 16, r + 17, check_interrupts, display_list, audio_list, rdp_list, check_interrupts };
    plugin.initiate(info, &cycles);
}

static void *in_thread(void *n) { *(unsigned *)n = plugin.cycles(*(unsigned *)n); return NULL; }

static unsigned cycles_in_thread(unsigned n)
{
    pthread_t thread;
    if (pthread_create(&thread, NULL, in_thread, &n) || pthread_join(thread, NULL)) abort();
    return n;
}

static const char *end_of(unsigned most)
{
    unsigned made = plugin.cycles(most);
    return registers[5] & 1 ? "halted" : made < most ? "waiting" : "running";
}

static void run_tasks(unsigned long n)
{
    unsigned long steps = 0;
    uint32_t count = sp[0xff0 / 4];
    for (; n; n--) {
        registers[8] = registers[5] = 0;
        sp[0xff0 / 4] = count;
        steps += plugin.cycles(0xffffffff);
    }
    printf("steps %lu\n", steps);
}

static uint32_t *memory(const char *bank) { return bank[0] == 'r' ? rdram : bank[0] == 'd' ? sp : sp + 1024; }

static void read_file(uint32_t *to, const char *path)
{
    unsigned char b[4];
    FILE *file = fopen(path, "rb");
    if (!file) exit(2);
    while (fread(b, 1, 4, file) == 4) *to++ = (uint32_t)b[0] << 24 | (uint32_t)b[1] << 16 | (uint32_t)b[2] << 8 | b[3];
    fclose(file);
}

static void put_words(uint32_t *to, char *words)
{
    for (char *word = strtok(words, " \n"); word; word = strtok(NULL, " \n")) *to++ = (uint32_t)strtoul(word, NULL, 16);
}

static void show_hash(void)
{
    uint32_t sum = 0;
    for (int i = 0; i < 2048; i++) sum = sum * 31 + sp[i];
    for (int i = 0; i < 0x200000; i++) sum = sum * 31 + rdram[i];
    printf("hash %08x\n", sum);
}

static void show_words(const uint32_t *from, int n)
{
    for (int i = 0; i < n; i++) printf("%s%08x", i ? " " : "", from[i]);
    putchar('\n');
}

static void set_register(const char *name, const char *value)
{
    for (int i = 0; i < REGISTERS; i++) if (!strcmp(names[i], name)) registers[i] = (unsigned)strtoul(value, NULL, 16);
}

static void show_registers(void) { for (int i = 0; i < REGISTERS; i++) printf("%s %08x\n", names[i], registers[i]); }

static void show_version(void)
{
    int type = 0, number = 0, api = 0, capabilities = 1;
    const char *name = NULL;
    plugin.get_version(NULL, NULL, NULL, NULL, NULL);
    plugin.get_version(&type, &number, &api, &name, &capabilities);
    printf("about %d %06x %06x %s %d\n", type, (unsigned)number, (unsigned)api, name, capabilities);
}

static void choose(const char *name, const char *value)
{
    snprintf(chosen[n_chosen].name, sizeof chosen->name, "%s", name);
    snprintf(chosen[n_chosen].value, sizeof chosen->value, "%s", value);
    n_chosen += n_chosen < OPTIONS - 1;
}

/* A command with its words; `rest` is what follows the third one. */
static void obey(char (*w)[256], char *rest)
{
    uint32_t address = (uint32_t)strtoul(w[2], NULL, 16);
    if (!strcmp(w[0], "version")) version = (unsigned)strtoul(w[1], NULL, 16);
    else if (!strcmp(w[0], "option")) choose(w[1], w[2]);
    else if (!strcmp(w[0], "small")) is_small = 1;
    else if (!strcmp(w[0], "rdp")) has_rdp = 1;
    else if (!strcmp(w[0], "start")) printf("start %d\n", plugin.startup(dlopen(NULL, RTLD_NOW), NULL, message));
    else if (!strcmp(w[0], "start-alone")) printf("start %d\n", plugin.startup(NULL, NULL, message));
    else if (!strcmp(w[0], "shutdown")) printf("shutdown %d\n", plugin.shutdown());
    else if (!strcmp(w[0], "about")) show_version();
    else if (!strcmp(w[0], "initiate")) initiate();
    else if (!strcmp(w[0], "close")) plugin.close();
    else if (!strcmp(w[0], "cycles")) printf("cycles %u\n", plugin.cycles((unsigned)strtoul(w[1], NULL, 10)));
    else if (!strcmp(w[0], "cycles!")) printf("cycles %u\n", cycles_in_thread((unsigned)strtoul(w[1], NULL, 10)));
    else if (!strcmp(w[0], "ends")) printf("ends %s\n", end_of((unsigned)strtoul(w[1], NULL, 10)));
    else if (!strcmp(w[0], "tasks")) run_tasks(strtoul(w[1], NULL, 10));
    else if (!strcmp(w[0], "file")) read_file(memory(w[1]) + address / 4, strtok(rest, " \n"));
    else if (!strcmp(w[0], "put")) put_words(memory(w[1]) + address / 4, rest);
    else if (!strcmp(w[0], "get")) show_words(memory(w[1]) + address / 4, atoi(rest));
    else if (!strcmp(w[0], "hash")) show_hash();
    else if (!strcmp(w[0], "set")) set_register(w[1], w[2]);
    else if (!strcmp(w[0], "registers")) show_registers();
    else if (!strcmp(w[0], "called")) printf("called %u %u %u %u\n", called[0], called[1], called[2], called[3]);
    else printf("unknown command %s\n", w[0]), exit(2);
}

int main(int count, char **words)
{
    static char line[65536], w[3][256];
    int at = 0;
    if (count != 2) return 2;
    rdram = calloc(1, 0x800000);
    if (!rdram || !load(words[1])) return 2;
    while (fgets(line, sizeof line, stdin)) {
        w[0][0] = w[1][0] = w[2][0] = 0;
        if (sscanf(line, "%255s %255s %255s %n", w[0], w[1], w[2], &at) < 1) continue;
        obey(w, line + (w[2][0] ? at : 0));
        fflush(stdout);
    }
    free(rdram);
    return 0;
}
