// A trap that the program has in itself.
#include "start.h"

volatile int zero;

int main(void)
{
    if (zero == 0)
        __builtin_trap();
    return 0;
}
