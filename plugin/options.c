/* Messages, and the section of the plugin in the emulator's configuration. */
#define _GNU_SOURCE
#include "plugin.h"
#include <dlfcn.h>
#include <stdarg.h>
#include <stdio.h>

#ifdef __x86_64__
__asm__(".symver dlsym, dlsym@GLIBC_2.2.5"); /* by the version that it had when it was in libdl, the plugin loads with an older glibc too */
#endif
plugin_options options = { .check_folder = ".", .check_addresses = 1 };
static m64p_message *message;
static void *message_context;

void tell_by(m64p_message *given, void *context)
{
    message = given;
    message_context = context;
}

void tell(int level, const char *format, ...)
{
    char line[1024];
    va_list arguments;
    va_start(arguments, format);
    vsnprintf(line, sizeof line, format, arguments);
    va_end(arguments);
    if (message) message(message_context, level, line);
}

/* The calls of the emulator that the plugin uses. */
static struct core_calls {
    m64p_get_versions *versions;
    m64p_open_section *open;
    m64p_save_section *save;
    m64p_get *get;
    m64p_default_float *default_float;
    m64p_default_int *default_bool;
    m64p_default_text *default_text;
    m64p_get_int *get_bool;
    m64p_get_text *get_text;
    m64p_do_command *do_command;
} core_calls;

/* Returns whether the emulator has them all. */
static int find_calls(void *core)
{
    static const struct { const char *name; void *call; } calls[] = {
        { "CoreGetAPIVersions", &core_calls.versions }, { "ConfigOpenSection", &core_calls.open },
        { "ConfigSaveSection", &core_calls.save }, { "ConfigGetParameter", &core_calls.get }, { "ConfigSetDefaultFloat", &core_calls.default_float },
        { "ConfigSetDefaultBool", &core_calls.default_bool }, { "ConfigSetDefaultString", &core_calls.default_text },
        { "ConfigGetParamBool", &core_calls.get_bool }, { "ConfigGetParamString", &core_calls.get_text },
        { "CoreDoCommand", &core_calls.do_command }
    };
    for (unsigned i = 0; i < sizeof calls / sizeof *calls; i++) {
        *(void **)calls[i].call = core ? dlsym(core, calls[i].name) : NULL;
        if (*(void **)calls[i].call) continue;
        tell(M64_ERROR, "the emulator has no %s", calls[i].name);
        return 0;
    }
    return 1;
}

static int read_bool(void *section, const char *name, int value, const char *help)
{
    core_calls.default_bool(section, name, value, help);
    return core_calls.get_bool(section, name);
}

/* The emulator may free its text when it gets another option, so it is copied. */
static void read_text(char *to, size_t size, void *section, const char *name, const char *value, const char *help)
{
    core_calls.default_text(section, name, value, help);
    snprintf(to, size, "%s", core_calls.get_text(section, name));
}

/* Reads the section. If the user has none yet, it is written with the defaults, so that he finds them; not in check mode, which no later run should begin
 * in unasked. */
static void read_section(void *section)
{
    float version;
    int is_new = core_calls.get(section, "Version", M64_FLOAT, &version, sizeof version) != M64_SUCCESS;
    core_calls.default_float(section, "Version", 1, "Version of this section's options");
    options.graphics_by_plugin = read_bool(section, "DisplayListToGraphicsPlugin", 0, "Send display lists to the graphics plugin instead of executing them");
    options.audio_by_plugin = read_bool(section, "AudioListToAudioPlugin", 0, "Send audio lists to the audio plugin instead of executing them");
    read_text(options.check_against, sizeof options.check_against, section, "CheckAgainst", "", "File of another RSP plugin to be checked task by task; empty for none");
    read_text(options.check_folder, sizeof options.check_folder, section, "CheckFolder", ".", "Folder for the reports of differences");
    options.check_addresses = read_bool(section, "CheckAddresses", 1, "Whether SP_MEM_ADDR and SP_DRAM_ADDR are compared");
    if (is_new && !*options.check_against) core_calls.save("Rsp-Proved");
}

/* The bytes of RDRAM that the open ROM has. */
size_t rdram_size(void)
{
    unsigned char settings[M64_SETTINGS_WITHOUT_PACK + 1] = { 0 };
    if (core_calls.do_command) core_calls.do_command(M64_ROM_GET_SETTINGS, sizeof settings, settings);
    return options.small_rdram || settings[M64_SETTINGS_WITHOUT_PACK] ? 0x400000 : 0x800000;
}

/* Finds the emulator's calls. Returns an m64p_error. */
int find_emulator(void *core)
{
    int version = 0;
    if (!find_calls(core)) return M64_INCOMPATIBLE;
    core_calls.versions(&version, NULL, NULL, NULL);
    if (version >> 16 == M64_API >> 16) return M64_SUCCESS;
    tell(M64_ERROR, "the emulator has version %d.%d of the configuration interface, and this plugin is for 2", version >> 16, version >> 8 & 255);
    return M64_INCOMPATIBLE;
}

/* Reads all options, and sets the defaults of those that the user doesn't have. Returns an m64p_error. */
int read_options(void)
{
    void *section;
    if (core_calls.open("Rsp-Proved", &section)) return M64_INCOMPATIBLE;
    read_section(section);
    if (!core_calls.open("Core", &section)) options.small_rdram = core_calls.get_bool(section, "DisableExtraMem");
    return M64_SUCCESS;
}
