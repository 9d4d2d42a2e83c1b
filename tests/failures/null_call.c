// A call of a null pointer.
#include "start.h"

int (*volatile handler)(void);

int main(void)
{
    return handler() + 1;
}
