// A read three bytes behind the end of a guarded buffer of 100 bytes, or as many as BEHIND says, or five below one: as
// BELOW says.
#include "../../examples/guest.h"
#include "start.h"

#ifndef BEHIND
#define BEHIND 102
#endif

volatile long behind = BEHIND;
volatile long before = -5;
volatile int below = BELOW;

int main(void)
{
    volatile unsigned char *other = guarded_end(5000);
    volatile unsigned char *buffer = below ? guarded_begin(100) : guarded_end(100);

    other[1] = 1;
    return buffer[BELOW ? before : behind];
}
