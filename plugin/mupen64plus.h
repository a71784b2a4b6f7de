/* What an RSP plugin and its emulator know of each other: version 2 of the plugin interface of mupen64plus, as far as the plugin uses it
 * (https://mupen64plus.org/wiki/index.php/Mupen64Plus_v2.0_Plugin_API). tests/plugin compares it with the headers of Debian's libmupen64plus-dev. */
#ifndef MUPEN64PLUS_H
#define MUPEN64PLUS_H

/* Errors, levels of messages, and the kind of a plugin. */
enum m64p_error { M64_SUCCESS = 0, M64_NOT_INIT = 1, M64_ALREADY_INIT = 2, M64_INCOMPATIBLE = 3 };
enum m64p_level { M64_ERROR = 1, M64_WARNING = 2, M64_INFO = 3 };
enum { M64_PLUGIN_RSP = 1, M64_API = 0x020000, M64_ROM_GET_SETTINGS = 4, M64_FLOAT = 2 };

typedef void m64p_message(void *context, int level, const char *text);

/* The emulator's memories and registers. Memories are words in the order of the host. */
typedef struct m64p_rsp_info {
    unsigned char *RDRAM, *DMEM, *IMEM;
    unsigned *MI_INTR, *SP_MEM_ADDR, *SP_DRAM_ADDR, *SP_RD_LEN, *SP_WR_LEN, *SP_STATUS, *SP_DMA_FULL, *SP_DMA_BUSY, *SP_PC, *SP_SEMAPHORE;
    unsigned *DPC_START, *DPC_END, *DPC_CURRENT, *DPC_STATUS, *DPC_CLOCK, *DPC_BUFBUSY, *DPC_PIPEBUSY, *DPC_TMEM;
    void (*CheckInterrupts)(void), (*ProcessDlistList)(void), (*ProcessAlistList)(void), (*ProcessRdpList)(void), (*ShowCFB)(void);
} m64p_rsp_info;

/* The calls of the emulator. */
typedef void m64p_get_versions(int *config, int *debug, int *video, int *more);
typedef int m64p_open_section(const char *name, void **section);
typedef int m64p_save_section(const char *name);
typedef int m64p_get(void *section, const char *name, int type, void *value, int size);
typedef int m64p_default_float(void *section, const char *name, float value, const char *help);
typedef int m64p_default_int(void *section, const char *name, int value, const char *help);
typedef int m64p_default_text(void *section, const char *name, const char *value, const char *help);
typedef int m64p_get_int(void *section, const char *name);
typedef const char *m64p_get_text(void *section, const char *name);
typedef int m64p_do_command(int command, int number, void *pointer);

/* What the emulator's list of ROMs says of the open one: the byte that is 1 if the ROM runs without the expansion pack, and so with 4 MB. */
enum { M64_SETTINGS_WITHOUT_PACK = 296 };

#endif
