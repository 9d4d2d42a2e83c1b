// A program that starts a thread, and goes on as if there was one.
#include "../../examples/threads.h"
#include "start.h"

struct thread thread;
volatile int done;

void work(void *with)
{
    (void)with;
    done = 1;
}

int main(void)
{
    start_thread(&thread, work, 0);
    while (!done)
        ;
    return 0;
}
