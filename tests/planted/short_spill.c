// Planted: a vector is kept in 16 bytes of memory, and longer ones overwrite what stands behind them.
#include <arm_sve.h>
#include "kernel_test.h"

static struct {
    unsigned kept[4];
    volatile unsigned behind[64];
} frame;

static unsigned short_spill(const unsigned *a, unsigned long n)
{
    svuint32_t sums = svdup_u32(0);
    unsigned added = 0;

    for (unsigned long k = 0; k < 64; k++)
        frame.behind[k] = 1;
    for (unsigned long i = 0; i < n; i += svcntw()) {
        svbool_t in = svwhilelt_b32(i, n);

        sums = svadd_m(in, sums, svld1(in, a + i));
    }
    svst1(svptrue_b32(), frame.kept, sums);
    __asm__ volatile("" ::: "memory");
    for (unsigned long k = 0; k < 64; k++)
        added += frame.behind[k];
    return (unsigned)svaddv(svptrue_b32(), svld1(svptrue_b32(), frame.kept)) + added;
}

static unsigned reference(const unsigned *a, unsigned long n)
{
    unsigned sum = 64;

    for (unsigned long i = 0; i < n; i++)
        sum += a[i];
    return sum;
}

int main(void)
{
    return TEST_FOLD(short_spill, reference, unsigned, unsigned);
}
