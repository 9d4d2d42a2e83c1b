// An access by SP where that is no multiple of 16.
#include "start.h"

int main(void)
{
    __asm__("sub sp, sp, #8\n\tldr x0, [sp]\n\tadd sp, sp, #8" ::: "x0");
    return 0;
}
