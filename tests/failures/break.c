// A write behind the memory that the break gave.
#include "../../examples/guest.h"
#include "start.h"

volatile long place = 8191 + 10;

int main(void)
{
    long start = system_call(214, 0, 0, 0);
    volatile char *heap = (volatile char *)start;

    system_call(214, start + 8192, 0, 0);
    heap[8191] = 1;
    heap[place] = 1;
    return 0;
}
