/* scripts: a script whole, and in pieces. Replies, DMEM and RDRAM are the same, and a reply is lines of printable characters. The first byte of an input
 * says how it is cut. */
#include "fuzz.h"

enum { IMAGE = 4096 };

int LLVMFuzzerTestOneInput(const uint8_t *data, size_t size)
{
    if (!size || is_slow(data + 1, size - 1)) return 0;
    played whole = play(data + 1, size - 1, 0, IMAGE), cut = play(data + 1, size - 1, 1 + data[0] % 7u, IMAGE);
    MUST(whole.len == cut.len && !memcmp(whole.replies, cut.replies, cut.len));
    MUST(!memcmp(whole.dmem, cut.dmem, sizeof cut.dmem) && !memcmp(whole.rdram, cut.rdram, sizeof cut.rdram));
    for (size_t i = 0; i < cut.len; i++) MUST(cut.replies[i] == '\n' || (cut.replies[i] >= ' ' && cut.replies[i] <= '~'));
    MUST(!cut.len || cut.replies[cut.len - 1] == '\n');
    free(whole.replies);
    free(cut.replies);
    return 0;
}
