// A program that waits for a thread that there isn't.
#include "../../examples/threads.h"
#include "start.h"

int word;

int main(void)
{
    futex(&word, FUTEX_WAIT, 0);
    return 0;
}
