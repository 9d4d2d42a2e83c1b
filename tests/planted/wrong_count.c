// Planted: doublewords are counted by the lanes of words (`cntw` for `cntd`), so every second vector is left out.
#include <arm_sve.h>
#include "kernel_test.h"

static void wrong_count(unsigned long *out, const unsigned long *a, unsigned long n)
{
    for (unsigned long i = 0; i < n; i += svcntw()) {
        svbool_t in = svwhilelt_b64(i, n);

        svst1(in, out + i, svadd_x(in, svld1(in, a + i), 1));
    }
}

static void reference(unsigned long *out, const unsigned long *a, unsigned long n)
{
    for (unsigned long i = 0; i < n; i++)
        out[i] = a[i] + 1;
}

int main(void)
{
    return TEST_MAP(wrong_count, reference, unsigned long, unsigned long);
}
