/* The library beside a second one of the kit, whose calls are named other_*. */
#include "brsp.h"
#include <string.h>
uint32_t other_text(uint32_t word, uint32_t place, brsp_line *out);
uint32_t other_new(brsp_machine *m, const uint8_t *image, size_t len, uint32_t depth);
void other_free(brsp_machine *m);
int main(void)
{
    static const uint8_t image[64];
    brsp_machine one = BRSP_NONE, two = BRSP_NONE;
    brsp_line line, other;
    if (brsp_new(&one, image, 64, 4) || other_new(&two, image, 64, 4)) return 1;
    if (brsp_text(0, 0, &line) || strcmp(line.text, "nop")) return 2;
    if (other_text(0, 0, &other) || strcmp(other.text, "nop")) return 3;
    brsp_free(&one);
    other_free(&two);
    return 0;
}
