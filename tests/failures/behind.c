// A write behind the end of a table, which is the last thing in its segment.
#include "start.h"

char table[100];
volatile long place = 5000;

int main(void)
{
    table[place] = 1;
    return 0;
}
