// Planted: what `compact` kept is stored by the predicate of what was loaded, and so with the zeros behind it.
#include <arm_sve.h>
#include "kernel_test.h"

// The odd numbers, in order, at the front; the places behind them keep what they had.
static void compacted_tail(unsigned *data, unsigned long n)
{
    unsigned long kept = 0;

    for (unsigned long i = 0; i < n; i += svcntw()) {
        svbool_t in = svwhilelt_b32(i, n);
        svuint32_t numbers = svld1(in, data + i);
        svbool_t odd = svcmpne(in, svand_x(in, numbers, 1), 0);

        svst1(svwhilelt_b32(kept, n), data + kept, svcompact(odd, numbers));
        kept += svcntp_b32(in, odd);
    }
}

static void reference(unsigned *data, unsigned long n)
{
    unsigned long kept = 0;

    for (unsigned long i = 0; i < n; i++)
        if (data[i] & 1)
            data[kept++] = data[i];
}

int main(void)
{
    return TEST_UPDATE(compacted_tail, reference, unsigned);
}
