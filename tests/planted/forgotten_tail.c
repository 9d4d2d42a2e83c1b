// Planted: a loop over whole vectors, and no `whilelo` for what is left behind them.
#include <arm_sve.h>
#include "kernel_test.h"

static void forgotten_tail(unsigned char *out, const unsigned char *a, unsigned long n)
{
    svbool_t all = svptrue_b8();

    for (unsigned long i = 0; i + svcntb() <= n; i += svcntb())
        svst1(all, out + i, svnot_x(all, svld1(all, a + i)));
}

static void reference(unsigned char *out, const unsigned char *a, unsigned long n)
{
    for (unsigned long i = 0; i < n; i++)
        out[i] = (unsigned char)~a[i];
}

int main(void)
{
    return TEST_MAP(forgotten_tail, reference, unsigned char, unsigned char);
}
