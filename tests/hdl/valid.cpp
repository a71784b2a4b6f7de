// Shows which bits of a record lock.cpp compares: ADDI $1, $0, 5 after reset, once as it is, then with an accumulator that the instruction doesn't
// write, compared and not, and then also with a wrong result.
#include "brsp.h"
#include "svdpi.h"
#include <cstdio>
#include <cstring>
extern "C" int lock_open(void), lock_load(int bank, int address, int word), lock_retire(const svBitVecVal *record, const svBitVecVal *valid);
static const int ADDI = 0x20010005;

static void compare(const brsp_changes &record, const brsp_changes &valid)
{
    svBitVecVal bits[2][sizeof record / sizeof(svBitVecVal)];
    memcpy(bits[0], &record, sizeof record);
    memcpy(bits[1], &valid, sizeof valid);
    puts(lock_open() && lock_load(BRSP_IMEM, 0, ADDI) && lock_retire(bits[0], bits[1]) ? "agrees" : "differs");
}

int main()
{
    brsp_changes record = {}, all, scalar;
    memset(&all, 0xff, sizeof all);
    scalar = all;
    memset(&scalar.accumulators, 0, sizeof scalar.accumulators);
    record.traced.word = ADDI;
    record.traced.scalar = 1;
    record.traced.value = 5;
    record.traced.vector = 32;
    compare(record, all);
    record.accumulators.high[3] = 7;
    compare(record, all);
    compare(record, scalar);
    record.traced.value = 6;
    compare(record, scalar);
}
