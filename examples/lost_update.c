// A bug that only some schedules of threads show.
//
// Two threads add 1 to a number, four times each. So it is 8 at the end.
//
// What to look at: `plainly` is a load, an addition and a store. Where the other thread has its turn between the load
// and the store, what it added is lost. whole_turns.schedule lets each thread go on until it waits or leaves, as a
// machine with one processor does nearly always, and the number is 8; with single_steps.schedule the two take turns at
// each step:
//
//     ./svemu threads examples/lost_update.elf examples/whole_turns.schedule --vl 128 --budget 9999
//     ./svemu threads examples/lost_update.elf examples/single_steps.schedule --vl 128 --budget 9999
//
// Right is `at_once`, one instruction that loads and stores in a step (`ldadd`; the compiler writes `stadd` where the
// old value isn't wanted). An argument chooses it, `-- once` at the end of the line, and then no schedule loses
// anything: `tools/svemu-schedules 100 examples/lost_update.elf once` tries 100 of them.

#include "threads.h"

enum { TIMES = 4 };

static volatile int number;

static void plainly(void *unused)
{
    (void)unused;
    for (int i = 0; i < TIMES; i++)
        number = number + 1;
}

static void at_once(void *unused)
{
    (void)unused;
    for (int i = 0; i < TIMES; i++)
        __atomic_fetch_add(&number, 1, __ATOMIC_RELAXED);
}

int main(int count, char **words)
{
    static struct thread other;
    void (*add)(void *) = count > 1 ? at_once : plainly;

    (void)words;
    if (start_thread(&other, add, 0) < 0) {
        put_text("no second thread: a schedule starts it\n");
        return 1;
    }
    add(0);
    join_thread(&other);
    put_line("number", number);
    return 0;
}
