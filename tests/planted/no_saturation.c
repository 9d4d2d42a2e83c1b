// Planted: a sum of bytes that should stay at 255 wraps.
#include <arm_sve.h>
#include "kernel_test.h"

static void no_saturation(unsigned char *out, const unsigned char *a, const unsigned char *b, unsigned long n)
{
    for (unsigned long i = 0; i < n; i += svcntb()) {
        svbool_t in = svwhilelt_b8(i, n);

        svst1(in, out + i, svadd_x(in, svld1(in, a + i), svld1(in, b + i)));
    }
}

static void reference(unsigned char *out, const unsigned char *a, const unsigned char *b, unsigned long n)
{
    for (unsigned long i = 0; i < n; i++)
        out[i] = (unsigned char)(a[i] + b[i] > 255 ? 255 : a[i] + b[i]);
}

int main(void)
{
    return TEST_MAP2(no_saturation, reference, unsigned char, unsigned char, unsigned char);
}
