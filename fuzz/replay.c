/* replay FILE..: gives a target each file, without a fuzzer. What must hold and doesn't ends it. */
#include "fuzz.h"

int main(int count, char **files)
{
    enum { LONGEST = 1 << 20 };
    static uint8_t bytes[LONGEST];
    for (int i = 1; i < count; i++) {
        FILE *file = fopen(files[i], "rb");
        if (!file) return fprintf(stderr, "cannot read %s\n", files[i]), 2;
        size_t len = fread(bytes, 1, sizeof bytes, file);
        fclose(file);
        fprintf(stderr, "%s\n", files[i]);
        uint8_t *input = copy_of(bytes, len);
        LLVMFuzzerTestOneInput(input, len);
        free(input);
    }
    return 0;
}
