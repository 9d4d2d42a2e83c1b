// A stack without a lock (Treiber's), and the fault that it has where an item comes back.
//
// Three items are on the stack. One thread takes one. The other takes two, puts the first one back and keeps the
// second. At the end each item is in one place: on the stack, or in the hand of one thread.
//
// What to look at: `pop` reads which item is on top, then the one below it, and puts that one on top if the top is
// still what it was. Where the other thread has taken both in the meantime and put the first one back, the top is what
// it was, and the item below it is in the other thread's hand: now it is on the stack too (the fault is named ABA). So
// above the number of the item the top has a count of its changes, and with an argument it hasn't:
//
//     tools/svemu-schedules --bound 2 examples/treiber_stack.elf
//     tools/svemu-schedules --bound 2 examples/treiber_stack.elf uncounted

#include "threads.h"

enum { ITEMS = 3 };

static unsigned below[ITEMS + 1];  // the number of the item below each, or 0
static unsigned long top;          // the number of the item on top, or 0; above 32 bits, how often that changed
static unsigned long one_change;   // what a change adds to it
static unsigned kept;              // the item in the other thread's hand

static int change(unsigned long *old, unsigned item)
{
    unsigned long new = ((*old + one_change) & ~0xfffffffful) | item;

    return __atomic_compare_exchange_n(&top, old, new, 0, __ATOMIC_ACQ_REL, __ATOMIC_ACQUIRE);
}

static void push(unsigned item)
{
    unsigned long old = __atomic_load_n(&top, __ATOMIC_ACQUIRE);

    do
        below[item] = (unsigned)old;
    while (!change(&old, item));
}

static unsigned pop(void)
{
    unsigned long old = __atomic_load_n(&top, __ATOMIC_ACQUIRE);

    while ((unsigned)old != 0 && !change(&old, below[(unsigned)old])) {
    }
    return (unsigned)old;
}

static void take_two(void *unused)
{
    unsigned first = pop();

    (void)unused;
    kept = pop();
    if (first != 0)
        push(first);
}

int main(int count, char **words)
{
    static struct thread other;
    unsigned places[ITEMS + 1] = {0};
    unsigned taken, wrong = 0;

    (void)words;
    one_change = count > 1 ? 0 : 1ul << 32;
    for (unsigned item = 1; item <= ITEMS; item++)
        push(item);
    if (start_thread(&other, take_two, 0) < 0) {
        put_text("no second thread: a schedule starts it\n");
        return 1;
    }
    taken = pop();
    join_thread(&other);
    places[taken]++;
    places[kept]++;
    for (unsigned rest = 0; rest < ITEMS && (taken = pop()) != 0; rest++)
        places[taken]++;
    for (unsigned item = 1; item <= ITEMS; item++)
        wrong += places[item] != 1;
    put_line("items that aren't in one place", wrong);
    return 0;
}
