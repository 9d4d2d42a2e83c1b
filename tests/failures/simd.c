// Advanced SIMD, as gcc -O3 makes it of a plain loop.
#include "start.h"

int sums[64];

__attribute__((noinline)) void fill(int *to, int by)
{
    for (int k = 0; k < 64; k++)
        to[k] = to[k] * by + k;
}

int main(void)
{
    fill(sums, 3);
    return 0;
}
