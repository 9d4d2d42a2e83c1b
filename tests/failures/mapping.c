// A write to a place of a mapping of four pages, or beside it.
#include "../../examples/guest.h"
#include "start.h"

volatile long place = PLACE;

int main(void)
{
    volatile char *mapped = (volatile char *)system_call_of_mapping(222, 0, 16384, 3, 0x22);

    mapped[0] = 1;
    mapped[place] = 1;
    return 0;
}
