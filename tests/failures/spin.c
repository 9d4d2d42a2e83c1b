// A loop without an end.
#include "start.h"

volatile int done;

__attribute__((noinline)) void spin(void)
{
    while (!done)
        ;
}

int main(void)
{
    spin();
    return 0;
}
