// A recursion without an end.
#include "start.h"

volatile int more = 1;

__attribute__((noinline)) int deeper(int n)
{
    volatile char room[1000];

    room[0] = (char)n;
    return more ? deeper(n + 1) + room[0] : 0;
}

int main(void)
{
    return deeper(0);
}
