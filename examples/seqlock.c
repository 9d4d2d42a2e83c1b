// A sequence lock: the writer doesn't wait for the reader, and the reader reads again where the writer came between.
//
// The writer changes two numbers, which are the same before and after. The reader takes both.
//
// What to look at: the sequence is odd while the writer is at work, and another even number when it has done. The
// reader takes the numbers between two looks at it, and begins anew unless both show the same even number. With an
// argument it looks once, at the beginning. Then it finds two numbers that differ where it began before the writer, and
// went on behind it: a schedule needs two switches for that, from the writer at its beginning, and from the reader
// between the two numbers. (A reader that finds an odd number sleeps until it changes.)
//
//     tools/svemu-schedules --bound 2 examples/seqlock.elf
//     tools/svemu-schedules --bound 2 examples/seqlock.elf once

#include "threads.h"

static int sequence;
static volatile int left, right;
static int once;
static int differ;

static void read_both(void *unused)
{
    int before, first, second;

    (void)unused;
    do {
        while ((before = __atomic_load_n(&sequence, __ATOMIC_ACQUIRE)) % 2 != 0)
            futex(&sequence, FUTEX_WAIT, before);
        first = left;
        second = right;
        __atomic_thread_fence(__ATOMIC_ACQUIRE);
    } while (!once && __atomic_load_n(&sequence, __ATOMIC_RELAXED) != before);
    differ = first != second;
}

static void write_both(int value)
{
    __atomic_store_n(&sequence, sequence + 1, __ATOMIC_RELAXED);
    __atomic_thread_fence(__ATOMIC_RELEASE);
    left = value;
    right = value;
    __atomic_store_n(&sequence, sequence + 1, __ATOMIC_RELEASE);
    futex(&sequence, FUTEX_WAKE, 64);
}

int main(int count, char **words)
{
    static struct thread reader;

    (void)words;
    once = count > 1;
    if (start_thread(&reader, read_both, 0) < 0) {
        put_text("no second thread: a schedule starts it\n");
        return 1;
    }
    write_both(1);
    join_thread(&reader);
    put_text(differ ? "the reader's numbers differ\n" : "the reader's numbers are the same\n");
    return 0;
}
