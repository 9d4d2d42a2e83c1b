// A write by a null pointer.
#include "start.h"

int *volatile place;

int main(void)
{
    *place = 1;
    return 0;
}
