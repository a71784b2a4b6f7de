/* Loaded before Debian's cen64 0.3+git20200723-1 by LD_PRELOAD: takes the answers of the monitor, and keeps a cen64 without a window alive.
 * - The bytes of the IS viewer go through iconv. Here they go to the descriptor CEN64_ANSWERS as they are, because standard output also has cen64's own lines,
 *   and cen64 takes their length by strlen; so the length is in the first word.
 * - With -headless, cen64 waits only for the thread of the window that it doesn't have, and would end at once. Just before that, the thread that does the
 *   waiting names the machine's thread by pthread_setname_np: there it waits for the machine. */
#define _GNU_SOURCE
#include <iconv.h>
#include <pthread.h>
#include <stdlib.h>
#include <unistd.h>

int pthread_setname_np(pthread_t machine, const char *name)
{
    (void)name;
    pthread_join(machine, NULL);
    _exit(0);
}

size_t iconv(iconv_t conversion, char **from, size_t *from_length, char **to, size_t *to_length)
{
    (void)conversion, (void)to, (void)to_length;
    const unsigned char *bytes = (const unsigned char *)*from;
    size_t length = (size_t)bytes[0] << 24 | (size_t)bytes[1] << 16 | (size_t)bytes[2] << 8 | bytes[3];
    const char *descriptor = getenv("CEN64_ANSWERS");
    for (size_t at = 0; at < length;) {
        ssize_t written = write(descriptor ? atoi(descriptor) : 1, bytes + 4 + at, length - at);
        if (written <= 0) _exit(0); /* nobody reads any more */
        at += (size_t)written;
    }
    *from += *from_length;
    *from_length = 0;
    return 0;
}
