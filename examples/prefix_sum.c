// The sums of the first one, two, three .. of some numbers, by a kernel that is tested in one line.
//
// What to look at: within a vector each step adds to every lane the lane that stands d places before it, with d = 1, 2,
// 4 and so on, until a lane has the sum of all before it. How many steps that takes depends on the vector's length: a
// loop that ends at a d that was right for one machine loses sums on a longer one. TEST_MAP (kernel_test.h) runs the
// kernel and the reference over every count of numbers up to three vectors, with nothing mapped behind or before them.

#include <arm_sve.h>
#include "kernel_test.h"

static void prefix_sum(unsigned *out, const unsigned *a, unsigned long n)
{
    unsigned before = 0;

    for (unsigned long i = 0; i < n; i += svcntw()) {
        svbool_t in = svwhilelt_b32(i, n);
        svuint32_t sums = svld1(in, a + i);

        for (unsigned long d = 1; d < svcntw(); d *= 2) {
            // d zeros, and behind them the lanes from the first on
            svuint32_t moved = svsplice(svwhilelt_b32(0ul, d), svdup_u32(0), sums);

            sums = svadd_x(svptrue_b32(), sums, moved);
        }
        sums = svadd_x(in, sums, before);
        svst1(in, out + i, sums);
        before = svlastb(in, sums);
    }
}

static void prefix_sum_by_one(unsigned *out, const unsigned *a, unsigned long n)
{
    unsigned sum = 0;

    for (unsigned long i = 0; i < n; i++) {
        sum += a[i];
        out[i] = sum;
    }
}

int main(void)
{
    return TEST_MAP(prefix_sum, prefix_sum_by_one, unsigned, unsigned);
}
