// A dot product: a multiply and add in each lane, and one fold at the end.
//
// What to look at: `_m` (merging). In the last turn some lanes may be outside of the predicate; they keep the sums of
// the turns before. Where `_z` stands they lose them, at some lengths and not at others, which is the bug of
// lost_sums.c. The fold takes all lanes (ptrue), since every lane has a sum, also those that the last turn left out.
//
// There are 1,000 products: at 128 bits (4 lanes) the last turn is full, at 384 (12 lanes) it has 4 of 12. Then TEST_FOLD2
// (kernel_test.h) compares the kernel with a plain loop, over every count of numbers up to three vectors. Where `_z`
// stands it finds a count at each length, also at 128 bits. Sums wrap at 32 bits, in each lane and in the fold.

#include <arm_sve.h>
#include "kernel_test.h"

enum { COUNT = 1000 };

static int left[COUNT], right[COUNT];

static int dot_product(const int *a, const int *b, unsigned long count)
{
    svint32_t sums = svdup_s32(0);

    for (unsigned long i = 0; i < count; i += svcntw()) {
        svbool_t in = svwhilelt_b32(i, count);

        sums = svmla_m(in, sums, svld1(in, a + i), svld1(in, b + i));
    }
    return (int)svaddv(svptrue_b32(), sums);
}

static int dot_product_by_one(const int *a, const int *b, unsigned long count)
{
    unsigned sum = 0;

    for (unsigned long i = 0; i < count; i++)
        sum += (unsigned)a[i] * (unsigned)b[i];
    return (int)sum;
}

int main(void)
{
    for (int i = 0; i < COUNT; i++) {
        left[i] = i - 300;
        right[i] = 7 - i % 13;
    }
    put_line("dot product", dot_product(left, right, COUNT));
    return TEST_FOLD2(dot_product, dot_product_by_one, int, int, int);
}
