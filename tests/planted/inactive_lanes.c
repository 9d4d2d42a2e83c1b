// Planted: the fold takes all lanes, and in the last turn those behind the end have the numbers of the turn before it.
#include <arm_sve.h>
#include "kernel_test.h"

static unsigned inactive_lanes(const unsigned *a, unsigned long n)
{
    svuint32_t numbers = svdup_u32(0);
    unsigned sum = 0;

    for (unsigned long i = 0; i < n; i += svcntw()) {
        svbool_t in = svwhilelt_b32(i, n);

        numbers = svsel(in, svld1(in, a + i), numbers);
        sum += (unsigned)svaddv(svptrue_b32(), numbers);
    }
    return sum;
}

static unsigned reference(const unsigned *a, unsigned long n)
{
    unsigned sum = 0;

    for (unsigned long i = 0; i < n; i++)
        sum += a[i];
    return sum;
}

int main(void)
{
    return TEST_FOLD(inactive_lanes, reference, unsigned, unsigned);
}
