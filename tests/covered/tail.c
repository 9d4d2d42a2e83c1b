// A loop over whole vectors, and a tail that runs where the vectors don't divide the count: at eight of the sixteen
// lengths. A function that nothing calls.
#include <arm_sve.h>
#include "guest.h"

enum { COUNT = 192 };
static int from[COUNT], to[COUNT];

__attribute__((noinline)) static void twice(int *out, const int *in, unsigned long count)
{
    unsigned long i = 0, lanes = svcntw();

    for (; i + lanes <= count; i += lanes)
        svst1(svptrue_b32(), out + i, svadd_x(svptrue_b32(), svld1(svptrue_b32(), in + i), svld1(svptrue_b32(), in + i)));
    if (i < count) {
        svbool_t rest = svwhilelt_b32(i, count);

        svst1(rest, out + i, svadd_x(rest, svld1(rest, in + i), svld1(rest, in + i)));
    }
}

static void unused(void) { put_text("never\n"); }
void (*volatile kept)(void) = unused;

int main(void)
{
    for (int i = 0; i < COUNT; i++)
        from[i] = i;
    twice(to, from, COUNT);
    put_line("last", to[COUNT - 1]);
    return 0;
}
