// Programs whose runs at two lengths part in other things than a kernel's output; the argument says in which.
#include "guest.h"

static volatile int shared;
static volatile unsigned char bytes[16];
static void *volatile kept;

// Within main: a call that answers the length would be the first that parts.
__attribute__((always_inline)) static inline unsigned long lanes(void)
{
    unsigned long words;

    __asm__ volatile("cntw %0" : "=r"(words));
    return words;
}

static void once(void)
{
    shared++;
}

static void twice(void)
{
    shared += 2;
}

static void broken(int really)
{
    if (really)
        __asm__ volatile("brk #0");
    shared++;
}

static void mapped(unsigned char *to, unsigned long number)
{
    to[3] = (unsigned char)number;
}

// Leaves a number in x0, and the address of its frame in memory.
static void unread(void)
{
    unsigned char frame[16];

    kept = frame;
    __asm__ volatile("cntb x0\n sub x1, sp, x0\n str x1, [%0]" : : "r"(&kept) : "x0", "x1", "memory");
}

int main(int count, char **words)
{
    unsigned long n = lanes();
    int what = count > 1 ? words[1][0] : 0;

    once();
    if (what == 'c') {
        if (n == 4)
            once();
        else
            twice();
    } else if (what == 'o') {
        put_line("lanes", (long)(4 * n));
    } else if (what == 't' && words[1][1] == 'r') {
        broken(n > 8);
    } else if (what == 't') {
        system_call(220, 0, 0, 0);
    } else if (what == 'm') {
        system_call_of_mapping(222, 0, 4096, 3, 0x22);
        mapped((unsigned char *)system_call_of_mapping(222, 0, 4096 * n, 3, 0x22), 4 * n);
    } else if (what == 'b') {
        bytes[2] = (unsigned char)n;
        once();
    } else if (what == 'u') {
        unread();
        once();
    } else if (what == 'n') {
        return *(volatile int *)8l;
    } else if (what == 's') {
        return 3;
    } else if (what == 'e') {
        for (;;)
            __asm__ volatile("");
    }
    return 0;
}
