// Planted: the pointers go on by 16 bytes a turn, whatever the length, so that longer vectors add some elements twice.
#include <arm_sve.h>
#include "kernel_test.h"

static unsigned fixed_stride(const unsigned *a, unsigned long n)
{
    svuint32_t sums = svdup_u32(0);

    for (unsigned long i = 0; i < n; i += svcntw(), a += 4) {
        svbool_t in = svwhilelt_b32(i, n);

        sums = svadd_m(in, sums, svld1(in, a));
    }
    return (unsigned)svaddv(svptrue_b32(), sums);
}

static unsigned reference(const unsigned *a, unsigned long n)
{
    unsigned sum = 0;

    for (unsigned long i = 0; i < n; i++)
        sum += a[i];
    return sum;
}

int main(void)
{
    return TEST_FOLD(fixed_stride, reference, unsigned, unsigned);
}
