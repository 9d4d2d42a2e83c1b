// Planted: `ext` by 32 bytes, which takes nothing from the second vector where a vector has no more than 32.
#include <arm_sve.h>
#include "kernel_test.h"

// Each number becomes the one eight places behind it, and the last eight become 0.
static void far_extract(unsigned *data, unsigned long n)
{
    for (unsigned long i = 0; i < n; i += svcntw()) {
        svuint32_t here = svld1(svwhilelt_b32(i, n), data + i);
        svuint32_t next = svld1(svwhilelt_b32(i + svcntw(), n), data + i + svcntw());

        svst1(svwhilelt_b32(i, n), data + i, svext(here, next, 8));
    }
}

static void reference(unsigned *data, unsigned long n)
{
    for (unsigned long i = 0; i < n; i++)
        data[i] = i + 8 < n ? data[i + 8] : 0;
}

int main(void)
{
    return TEST_UPDATE(far_extract, reference, unsigned);
}
