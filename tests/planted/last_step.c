// Planted: the last step of a prefix sum within a vector is the one of 8 lanes, which is enough up to 512 bits.
#include <arm_sve.h>
#include "kernel_test.h"

static void last_step(unsigned *out, const unsigned *a, unsigned long n)
{
    unsigned before = 0;

    for (unsigned long i = 0; i < n; i += svcntw()) {
        svbool_t in = svwhilelt_b32(i, n);
        svuint32_t sums = svld1(in, a + i);

        for (unsigned long d = 1; d < 16; d *= 2)
            sums = svadd_x(svptrue_b32(), sums, svsplice(svwhilelt_b32(0ul, d), svdup_u32(0), sums));
        sums = svadd_x(in, sums, before);
        svst1(in, out + i, sums);
        before = svlastb(in, sums);
    }
}

static void reference(unsigned *out, const unsigned *a, unsigned long n)
{
    unsigned sum = 0;

    for (unsigned long i = 0; i < n; i++)
        out[i] = sum += a[i];
}

int main(void)
{
    return TEST_MAP(last_step, reference, unsigned, unsigned);
}
