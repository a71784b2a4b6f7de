/* posix_windows.c: what the proved program asks of Linux, on Windows. posix_NAME does what Linux's manual page of NAME says, with Linux's numbers, as far as
 * the program asks for it. It refuses the rest.
 *
 * A file is its handle, of which Windows uses 32 bits; 0, 1 and 2 are the standard streams. In arguments `\` becomes `/`, which is what separates names for the
 * program. A file that is there is a link to its whole path, `//?/C:/..`, and only by that path it is the file. So the program replaces what a name leads to,
 * and needs to know neither drives nor Windows' links. What no new file may replace is a device here. */
#include "cpuid.h"
#include <errno.h>
#include <windows.h>

int _dowildcard = 0; /* `*` in an argument is a character: mingw's start-up reads this */

/* Linux's numbers. Those of errno up to 34 are the same here. */
enum { TOO_LONG = 36, NOT_HERE = 38 };
enum { O_WRONLY = 1, O_CREAT = 0100, O_EXCL = 0200, O_NOCTTY = 0400, O_TRUNC = 01000, O_CLOEXEC = 02000000 };
enum { AT_SYMLINK_NOFOLLOW = 0x100, AT_EMPTY_PATH = 0x1000, S_IFCHR = 0020000, S_IFREG = 0100000, S_IFLNK = 0120000 };
enum { STATX_TYPE = 1, STATX_MODE = 2, STATX_NLINK = 4, STATX_INO = 0x100, STATX_SIZE = 0x200 };
enum { PATH_ROOM = 4096, PIECE = 65536 };

/* Windows' attributes of a file that a mode carries to the file that replaces it, in place of permissions: all that its twelve low bits have room for. */
enum { KEPT = 0x1a7 };

/* The start of Linux's struct statx, and its device. */
struct statx {
    unsigned mask, block;
    unsigned long long attributes;
    unsigned links, user, group;
    unsigned short mode, spare;
    unsigned long long inode, size;
    unsigned char between[88];
    unsigned device_major, device_minor;
};

static int error, count;
static wchar_t **words;

int rattle_errno(void)
{
    return error;
}

void rattle_set_errno(int number)
{
    error = number;
}

static int refused(int number)
{
    error = number;
    return -1;
}

/* -1, and for what Windows says the number by which the program decides. Only where ENOENT is said a file can be made, so it isn't the number of
 * ERROR_PATH_NOT_FOUND, which Windows also says of a path that is too long. */
static int failed(void)
{
    static const struct { DWORD said; int number; } known[] = {
        { ERROR_FILE_NOT_FOUND, ENOENT },      { ERROR_ACCESS_DENIED, EACCES },   { ERROR_FILE_EXISTS, EEXIST },      { ERROR_ALREADY_EXISTS, EEXIST },
        { ERROR_NOT_ENOUGH_MEMORY, ENOMEM },   { ERROR_OUTOFMEMORY, ENOMEM },     { ERROR_WRITE_PROTECT, EROFS },     { ERROR_INVALID_NAME, TOO_LONG },
        { ERROR_FILENAME_EXCED_RANGE, TOO_LONG }, { ERROR_PATH_NOT_FOUND, TOO_LONG },
    };
    DWORD said = GetLastError();
    for (size_t i = 0; i < sizeof known / sizeof *known; i++)
        if (known[i].said == said) return refused(known[i].number);
    return refused(EIO);
}

static HANDLE handle(int file)
{
    return file > 2 ? (HANDLE)(intptr_t)file : GetStdHandle(STD_INPUT_HANDLE - (DWORD)file);
}

/* A path in UTF-16, in one of two places, with `\` for `/`, because Windows takes what begins with `\\?\` letter by letter. None for a name that is too long:
 * wine says of it that there is no such file. */
static const wchar_t *wide(const char *path, int place)
{
    static wchar_t made[2][PATH_ROOM];
    if (!MultiByteToWideChar(CP_UTF8, 0, path, -1, made[place], PATH_ROOM)) return L"";
    for (wchar_t *at = made[place]; (at = wcschr(at, '/'));) *at = '\\';
    const wchar_t *name = wcsrchr(made[place], '\\');
    return wcslen(name ? name + 1 : made[place]) < 256 ? made[place] : L"";
}

/* Puts a text into a buffer in UTF-8, with `/` for `\`. Returns its length; 0 if it is empty, needs more room, or has half of a pair. */
static int narrow(const wchar_t *text, char *to, size_t room)
{
    int len = room ? WideCharToMultiByte(CP_UTF8, WC_ERR_INVALID_CHARS, text, (int)wcslen(text), to, (int)room, NULL, NULL) : 0;
    for (int i = 0; i < len; i++)
        if (to[i] == '\\') to[i] = '/';
    return len;
}

/* The devices whose bytes Windows may wait for. NUL isn't one: it has its end at once. */
static const char *const devices[] = {
    "CON", "CONIN$", "CONOUT$", "AUX", "PRN", "COM0", "COM1", "COM2", "COM3", "COM4", "COM5", "COM6", "COM7", "COM8", "COM9", "COM\xc2\xb9", "COM\xc2\xb2",
    "COM\xc2\xb3", "LPT0", "LPT1", "LPT2", "LPT3", "LPT4", "LPT5", "LPT6", "LPT7", "LPT8", "LPT9", "LPT\xc2\xb9", "LPT\xc2\xb2", "LPT\xc2\xb3"
};

/* Whether a path names a device. Windows finds it in each folder, in either case, with any extension, and with spaces or a colon after it. */
static BOOL is_device(const char *path)
{
    for (const char *at; (at = strpbrk(path, "\\/"));) path = at + 1;
    if (*path && path[1] == ':') path += 2;
    size_t len = strcspn(path, ".:");
    while (len && path[len - 1] == ' ') len--;
    for (size_t i = 0; i < sizeof devices / sizeof *devices; i++)
        if (len == strlen(devices[i]) && !_strnicmp(path, devices[i], len)) return TRUE;
    return FALSE;
}

static HANDLE opened(const char *path, DWORD access, DWORD how, DWORD more)
{
    return CreateFileW(wide(path, 0), access, FILE_SHARE_READ | FILE_SHARE_WRITE | FILE_SHARE_DELETE, NULL, how, more, NULL);
}

/* The whole path of an open file, behind all links. Empty if it has none, or one that is too long. */
static const wchar_t *path_of(HANDLE file)
{
    static wchar_t found[PATH_ROOM];
    DWORD len = GetFinalPathNameByHandleW(file, found, PATH_ROOM, 0);
    return len && len < PATH_ROOM ? found : L"";
}

/* The program makes a file by O_EXCL beside one, which it then replaces. With a colon in its name it would be inside another file, or in the folder of a
 * drive, and so it is refused. */
int posix_open(const char *path, int flags, ...)
{
    const char *name = strrchr(path, '/');
    if (flags & ~(O_WRONLY | O_CREAT | O_EXCL | O_NOCTTY | O_TRUNC | O_CLOEXEC)) return refused(EINVAL);
    if (is_device(path) || (flags & O_EXCL && strchr(name ? name : path, ':'))) return refused(EACCES);
    DWORD how = flags & O_EXCL ? CREATE_NEW : flags & O_CREAT ? OPEN_ALWAYS : OPEN_EXISTING;
    HANDLE file = opened(path, flags & O_WRONLY ? GENERIC_WRITE : GENERIC_READ, how, 0);
    if (file == INVALID_HANDLE_VALUE) return failed();
    if (!(flags & O_TRUNC) || GetFileType(file) != FILE_TYPE_DISK || SetEndOfFile(file)) return (int)(intptr_t)file;
    failed();
    CloseHandle(file);
    return -1;
}

int posix_close(int file)
{
    return CloseHandle(handle(file)) ? 0 : failed();
}

/* A pipe that nobody writes any more is at its end. */
ssize_t posix_read(int file, void *to, size_t len)
{
    DWORD got = 0;
    if (ReadFile(handle(file), to, len < PIECE ? (DWORD)len : PIECE, &got, NULL) || GetLastError() == ERROR_BROKEN_PIPE) return got;
    return failed();
}

ssize_t posix_write(int file, const void *from, size_t len)
{
    DWORD put = 0;
    return WriteFile(handle(file), from, len < PIECE ? (DWORD)len : PIECE, &put, NULL) ? (ssize_t)put : failed();
}

int posix_isatty(int file)
{
    DWORD mode;
    if (GetConsoleMode(handle(file), &mode)) return 1;
    error = ENOTTY;
    return 0;
}

int posix_fsync(int file)
{
    return FlushFileBuffers(handle(file)) ? 0 : failed();
}

int posix_fchmod(int file, unsigned mode)
{
    FILE_BASIC_INFO info = { .FileAttributes = mode & KEPT ? mode & KEPT : FILE_ATTRIBUTE_NORMAL };
    return SetFileInformationByHandle(handle(file), FileBasicInfo, &info, sizeof info) ? 0 : failed();
}

int posix_rename(const char *from, const char *to)
{
    return MoveFileExW(wide(from, 0), wide(to, 1), MOVEFILE_REPLACE_EXISTING | MOVEFILE_WRITE_THROUGH) ? 0 : failed();
}

int posix_unlink(const char *path)
{
    return DeleteFileW(wide(path, 0)) ? 0 : failed();
}

/* Fills what the program reads about an open file that is no link. */
static void describe(HANDLE file, struct statx *found)
{
    BY_HANDLE_FILE_INFORMATION it;
    if (GetFileType(file) != FILE_TYPE_DISK || !GetFileInformationByHandle(file, &it) || it.dwFileAttributes & FILE_ATTRIBUTE_DIRECTORY) return;
    found->mask |= STATX_NLINK | STATX_INO | STATX_SIZE;
    found->mode = (unsigned short)(S_IFREG | (it.dwFileAttributes & KEPT));
    found->links = it.nNumberOfLinks;
    found->inode = (unsigned long long)it.nFileIndexHigh << 32 | it.nFileIndexLow;
    found->size = (unsigned long long)it.nFileSizeHigh << 32 | it.nFileSizeLow;
    found->device_minor = it.dwVolumeSerialNumber;
}

/* About an open file (AT_EMPTY_PATH), or about a path. The program asks about /proc/self, because what is on that device are links to open files, which no new
 * file replaces. Windows has none, and a folder of this name is any folder. */
int posix_statx(int file, const char *path, int flags, unsigned mask, struct statx *found)
{
    (void)mask;
    *found = (struct statx){ .mask = STATX_TYPE | STATX_MODE, .mode = S_IFCHR };
    if (flags & AT_EMPTY_PATH) return describe(handle(file), found), 0;
    if (is_device(path)) return refused(EACCES);
    if (!strcmp(path, "/proc/self")) return refused(ENOENT);
    HANDLE at = opened(path, 0, OPEN_EXISTING, FILE_FLAG_BACKUP_SEMANTICS);
    if (at == INVALID_HANDLE_VALUE) /* what has attributes is a link that leads to nothing */
        return failed(), GetFileAttributesW(wide(path, 0)) == INVALID_FILE_ATTRIBUTES ? -1 : 0;
    describe(at, found);
    if (flags & AT_SYMLINK_NOFOLLOW && (found->mode & S_IFREG) == S_IFREG && wcscmp(path_of(at), wide(path, 0)))
        *found = (struct statx){ .mask = STATX_TYPE | STATX_MODE, .mode = S_IFLNK };
    CloseHandle(at);
    return 0;
}

/* The whole path of what a path leads to. */
ssize_t posix_readlink(const char *path, char *to, size_t room)
{
    HANDLE file = opened(path, 0, OPEN_EXISTING, FILE_FLAG_BACKUP_SEMANTICS);
    if (file == INVALID_HANDLE_VALUE) return failed();
    int len = narrow(path_of(file), to, room);
    CloseHandle(file);
    return len ? len : refused(TOO_LONG);
}

/* The program doesn't come to these. */
int posix_chown(void) { return refused(NOT_HERE); }
int posix_fdatasync(void) { return refused(NOT_HERE); }
int posix_flock(void) { return refused(NOT_HERE); }
int posix_ftruncate(void) { return refused(NOT_HERE); }
ssize_t posix_lseek(void) { return refused(NOT_HERE); }

/* By this name main has a signal ignored. Windows has no such signals. */
void *__sysv_signal(void) { return NULL; }

/* Puts an argument at the start of a buffer. Returns its length, -1 if there is none, and -2 if the buffer is too short. One with half of a pair becomes what
 * isn't UTF-8 either. */
ssize_t rattle_arg(size_t number, char *to, size_t room)
{
    if (number >= (size_t)count) return -1;
    if (!*words[number]) return 0;
    int len = narrow(words[number], to, room);
    if (len) return len;
    return room && GetLastError() == ERROR_NO_UNICODE_TRANSLATION ? (*to = (char)0xff, 1) : -2;
}

int posix_main(void);

int wmain(int given, wchar_t **them)
{
    static wchar_t name[] = L"rsp"; /* as in process.h */
    count = given;
    words = them;
    if (count) words[0] = name;
    return posix_main();
}
