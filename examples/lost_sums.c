// A bug that only some vector lengths show.
//
// The numbers from 1 to 1,000 are added. Their sum is 500500.
//
// What to look at: the last turn of the loop. `_z` zeroes the lanes outside of the predicate, and these have the sums
// of all turns before. Where the number of lanes divides 1,000 there are no such lanes: at 128 and 256 bits (4 and 8
// lanes) the sum is right, and so are all tests on machines of these lengths. At 512 bits (16 lanes) the last turn has
// 8 of 16, and half of the sums are lost. `./svemu sweep examples/lost_sums.elf --budget 100000 </dev/null` shows where
// the output isn't that at 128 bits.
//
// Right is `svadd_m`, which keeps those lanes, as in dot_product.c.

#include <arm_sve.h>
#include "guest.h"

enum { COUNT = 1000 };

static int numbers[COUNT];

static long sum(const int *from, unsigned long count)
{
    svint32_t sums = svdup_s32(0);

    for (unsigned long i = 0; i < count; i += svcntw()) {
        svbool_t in = svwhilelt_b32(i, count);

        sums = svadd_z(in, sums, svld1(in, from + i));
    }
    return svaddv(svptrue_b32(), sums);
}

int main(void)
{
    for (int i = 0; i < COUNT; i++)
        numbers[i] = i + 1;
    put_line("sum", sum(numbers, COUNT));
    return 0;
}
