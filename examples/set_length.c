// A kernel at every length that one run can set.
//
// A program may lower its vector length, and raise it again up to the one that it began with: prctl with PR_SVE_SET_VL,
// which answers the length in bytes. So the bug of lost_sums.c is found in one run, and not in one for each length.
//
// What to look at: where `main` asks for more than there is, the answer is the length that it began with. Behind each
// call the predicates are false and of the vectors only the low 128 bits are left; so no value of a vector type may
// live across the call, nor a number of lanes, and `sum` is kept out of `main`.

#include <arm_sve.h>
#include "guest.h"

enum { PRCTL = 167, PR_SVE_SET_VL = 50 };

enum { COUNT = 1000 };

static int numbers[COUNT];

static long set_length(long bytes)
{
    return system_call(PRCTL, PR_SVE_SET_VL, bytes, 0);
}

// `_z` is the bug: where the last turn leaves lanes out, their sums are lost.
static long __attribute__((noinline)) sum(const int *from, unsigned long count)
{
    svint32_t sums = svdup_s32(0);

    for (unsigned long i = 0; i < count; i += svcntw()) {
        svbool_t in = svwhilelt_b32(i, count);

        sums = svadd_z(in, sums, svld1(in, from + i));
    }
    return svaddv(svptrue_b32(), sums);
}

static void fill(void)
{
    for (int i = 0; i < COUNT; i++)
        numbers[i] = i + 1;
}

int main(void)
{
    fill();
    for (long bytes = 16; set_length(bytes) == bytes; bytes += 16) {
        put_text("bits ");
        put_number(8 * bytes);
        put_line(" sum", sum(numbers, COUNT));
    }
    return 0;
}
