/* What start.c says of the processor, by the name own, beside what glibc says. */
#include <sys/platform/x86.h>
const struct cpuid_feature *own(unsigned);
int main(void)
{
    unsigned tested[3] = {0x982201, 0, 1};
    for (unsigned n = 0; n < 3; n += 2) {
        const struct cpuid_feature *right = __x86_get_cpuid_feature_leaf(n), *found = own(n);
        unsigned cpuid = right->cpuid_array[2] ^ found->cpuid_array[2];
        unsigned active = right->active_array[2] ^ found->active_array[2];
        if ((cpuid | active) & tested[n]) return 1;
    }
    return own(1)->active_array[1] != 0 || own(99)->active_array[2] != 0;
}
