// Planted: a load by a full predicate, of which only the lanes of a partial one are used.
#include <arm_sve.h>
#include "kernel_test.h"

static unsigned full_predicate(const unsigned *a, unsigned long n)
{
    svuint32_t sums = svdup_u32(0);

    for (unsigned long i = 0; i < n; i += svcntw())
        sums = svadd_m(svwhilelt_b32(i, n), sums, svld1(svptrue_b32(), a + i));
    return (unsigned)svaddv(svptrue_b32(), sums);
}

static unsigned reference(const unsigned *a, unsigned long n)
{
    unsigned sum = 0;

    for (unsigned long i = 0; i < n; i++)
        sum += a[i];
    return sum;
}

int main(void)
{
    return TEST_FOLD(full_predicate, reference, unsigned, unsigned);
}
