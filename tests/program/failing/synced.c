// Tells, on the descriptor TOLD, what a program syncs and that it renames a file. A folder is told by its inode.
#define _GNU_SOURCE
#include <stdio.h>
#include <stdlib.h>
#include <sys/stat.h>
#include <sys/syscall.h>
#include <unistd.h>

int fsync(int file) {
    struct stat found;
    if (fstat(file, &found)) return -1;
    if (S_ISDIR(found.st_mode)) dprintf(atoi(getenv("TOLD")), "folder %lu synced, ", (unsigned long)found.st_ino);
    else dprintf(atoi(getenv("TOLD")), "file synced, ");
    return (int)syscall(SYS_fsync, file);
}

int rename(const char *from, const char *to) {
    dprintf(atoi(getenv("TOLD")), "renamed, ");
    return (int)syscall(SYS_rename, from, to);
}
