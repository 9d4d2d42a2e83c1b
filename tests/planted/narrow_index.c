// Planted: the places of bytes in a vector, counted from 1 in lanes of 8 bits: at 2048 bits the last is 0.
#include <arm_sve.h>
#include "kernel_test.h"

// The place of the last 0 among the first vector's bytes, from 1 on; 0 where there is none.
static unsigned narrow_index(const unsigned char *a, unsigned long n)
{
    svbool_t in = svwhilelt_b8(0ul, n);
    svbool_t zeros = svcmpeq(in, svld1(in, a), 0);
    unsigned char last;

    svst1(svptrue_pat_b8(SV_VL1), &last, svdup_u8(svmaxv(zeros, svindex_u8(1, 1))));
    return last;
}

static unsigned reference(const unsigned char *a, unsigned long n)
{
    unsigned last = 0;

    for (unsigned long i = 0; i < n && i < vector_bytes(); i++)
        if (a[i] == 0)
            last = (unsigned)i + 1;
    return last & 255;
}

int main(void)
{
    return TEST_FOLD(narrow_index, reference, unsigned, unsigned char);
}
