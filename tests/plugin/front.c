/* front CORE.so ROM RSP.so OUT MODE SECONDS [NAME=VALUE..]: a front end of mupen64plus without screen, sound and input. It runs a ROM with an RSP plugin in a
 * CPU mode (0 interpreter, 1 cached interpreter, 2 recompiler) until word 3ffff0 of RDRAM is 'DONE', and writes 4 MB of RDRAM, in the console's order.
 * NAME=VALUE sets an option of the plugin. In the environment GRAPHICS names a graphics plugin.
 * It prints what the plugins say, and the seconds. The status is 0 if the ROM came to its end. */
#include "m64p_types.h"
#include "m64p_common.h"
#include "m64p_config.h"
#include "m64p_debugger.h"
#include "m64p_frontend.h"
#include "m64p_plugin.h"
#include <dlfcn.h>
#include <pthread.h>
#include <stdint.h>
#include <stdio.h>
#include <stdlib.h>
#include <string.h>
#include <time.h>
#include <unistd.h>

enum { DONE_AT = 0x3ffff0 / 4, DONE = 0x444f4e45, SHOWN = 0x400000 };
static void *core;
static ptr_CoreDoCommand command;
static ptr_DebugMemGetPointer memory;
static struct timespec begun;
static double seconds;
static volatile int is_over, is_done;
#define CALL_OF(name) ((ptr_##name)dlsym(core, #name))

static double elapsed(void)
{
    struct timespec now;
    clock_gettime(CLOCK_MONOTONIC, &now);
    return (double)(now.tv_sec - begun.tv_sec) + 1e-9 * (double)(now.tv_nsec - begun.tv_nsec);
}

static void message(void *who, int level, const char *text)
{
    if (level <= (strcmp(who, "rsp") ? M64MSG_WARNING : M64MSG_INFO)) printf("%s %d %s\n", (char *)who, level, text);
}

/* Waits for the ROM's end, and stops the emulator. If it doesn't stop, neither does its plugin. */
static void *watch(void *unused)
{
    while (!is_over && elapsed() < seconds && !is_done) {
        volatile uint32_t *rdram = memory(M64P_DBG_PTR_RDRAM);
        is_done = rdram && rdram[DONE_AT] == DONE;
        usleep(500);
    }
    printf("front %s %.3f\n", is_done ? "done" : "not-done", elapsed());
    fflush(stdout);
    command(M64CMD_STOP, 0, NULL);
    for (int i = 0; i < 600 && !is_over; i++) usleep(100000);
    if (!is_over) _exit(1);
    return unused;
}

static void set_options(char **words)
{
    m64p_handle section;
    CALL_OF(ConfigOpenSection)("Rsp-Proved", &section);
    for (; *words; words++) {
        char *value = strchr(*words, '=');
        if (!value) exit(2);
        *value++ = 0;
        CALL_OF(ConfigSetParameter)(section, *words, M64TYPE_STRING, value);
    }
}

static void start_core(const char *path, int mode, char **options)
{
    m64p_handle section;
    int zero = 0;
    core = dlopen(path, RTLD_NOW);
    if (!core) exit(2);
    command = CALL_OF(CoreDoCommand);
    memory = CALL_OF(DebugMemGetPointer);
    if (CALL_OF(CoreStartup)(0x020001, "config", "/usr/share/games/mupen64plus", "core", message, NULL, NULL)) exit(2);
    CALL_OF(ConfigOpenSection)("Core", &section);
    CALL_OF(ConfigSetParameter)(section, "R4300Emulator", M64TYPE_INT, &mode);
    CALL_OF(ConfigSetParameter)(section, "OnScreenDisplay", M64TYPE_BOOL, &zero);
    set_options(options);
}

static void open_rom(const char *path)
{
    static uint8_t rom[1 << 22];
    FILE *file = fopen(path, "rb");
    if (!file) exit(2);
    int size = (int)fread(rom, 1, sizeof rom, file);
    fclose(file);
    if (command(M64CMD_ROM_OPEN, size, rom)) exit(2);
}

/* Attaches the plugin in a file, or none. */
static void *attach(m64p_plugin_type type, const char *path, const char *who)
{
    void *plugin = path ? dlopen(path, RTLD_NOW) : NULL;
    if (path && !plugin) { puts(dlerror()); exit(2); }
    if (plugin) ((ptr_PluginStartup)dlsym(plugin, "PluginStartup"))(core, (void *)who, message);
    if (CALL_OF(CoreAttachPlugin)(type, plugin)) exit(2);
    return plugin;
}

static void write_rdram(const char *path)
{
    const uint32_t *rdram = memory(M64P_DBG_PTR_RDRAM);
    FILE *file = fopen(path, "wb");
    if (!file) exit(2);
    for (int i = 0; i < SHOWN / 4; i++) {
        uint32_t word = __builtin_bswap32(rdram[i]);
        fwrite(&word, 4, 1, file);
    }
    fclose(file);
}

int main(int count, char **words)
{
    pthread_t watcher;
    int zero = 0;
    if (count < 7) return 2;
    setvbuf(stdout, NULL, _IOLBF, 0);
    clock_gettime(CLOCK_MONOTONIC, &begun);
    seconds = atof(words[6]);
    start_core(words[1], atoi(words[5]), words + 7);
    open_rom(words[2]);
    attach(M64PLUGIN_GFX, getenv("GRAPHICS"), "graphics");
    attach(M64PLUGIN_AUDIO, NULL, "audio");
    attach(M64PLUGIN_INPUT, NULL, "input");
    void *rsp = attach(M64PLUGIN_RSP, words[3], "rsp");
    command(M64CMD_CORE_STATE_SET, M64CORE_SPEED_LIMITER, &zero);
    pthread_create(&watcher, NULL, watch, NULL);
    command(M64CMD_EXECUTE, 0, NULL);
    is_over = 1;
    pthread_join(watcher, NULL);
    write_rdram(words[4]);
    CALL_OF(CoreDetachPlugin)(M64PLUGIN_RSP);
    ((ptr_PluginShutdown)dlsym(rsp, "PluginShutdown"))();
    command(M64CMD_ROM_CLOSE, 0, NULL);
    CALL_OF(CoreShutdown)();
    return !is_done;
}
