// A ticket lock: who comes takes the next ticket, and waits until it is served.
//
// Two threads add 1 to a number under the lock, by a load, an addition and a store. So it is 2 at the end.
//
// What to look at: a ticket is taken by one instruction that loads and stores in a step (`ldadd`). With an argument it
// is taken by a load and a store. Where the other thread takes its own between these, both have the same ticket, and
// the next one is nobody's: both are in the lock at once, or one waits for ever. (Who waits sleeps until the ticket
// that is served changes, so that a schedule needn't switch to end its waiting.)
//
//     tools/svemu-schedules --bound 2 examples/ticket_lock.elf
//     tools/svemu-schedules --bound 2 examples/ticket_lock.elf torn

#include "threads.h"

static int next_ticket, served;
static int torn;
static volatile int number;

static int ticket(void)
{
    int mine;

    if (!torn)
        return __atomic_fetch_add(&next_ticket, 1, __ATOMIC_RELAXED);
    mine = __atomic_load_n(&next_ticket, __ATOMIC_RELAXED);
    __atomic_store_n(&next_ticket, mine + 1, __ATOMIC_RELAXED);
    return mine;
}

static void lock(void)
{
    int mine = ticket();
    int now;

    while ((now = __atomic_load_n(&served, __ATOMIC_ACQUIRE)) != mine)
        futex(&served, FUTEX_WAIT, now);
}

static void unlock(void)
{
    __atomic_store_n(&served, served + 1, __ATOMIC_RELEASE);
    futex(&served, FUTEX_WAKE, 64);
}

static void add(void *unused)
{
    (void)unused;
    lock();
    number = number + 1;
    unlock();
}

int main(int count, char **words)
{
    static struct thread other;

    (void)words;
    torn = count > 1;
    if (start_thread(&other, add, 0) < 0) {
        put_text("no second thread: a schedule starts it\n");
        return 1;
    }
    add(0);
    join_thread(&other);
    put_line("number", number);
    return 0;
}
