// Threads without a C library, by system calls of Linux: to start one, to wait for one, and to wait at a word and wake
// those who do.

#ifndef THREADS_H
#define THREADS_H

#include "guest.h"

enum { CALL_FUTEX = 98, CALL_GETTID = 178, CALL_CLONE = 220 };

enum { FUTEX_WAIT = 0, FUTEX_WAKE = 1 };

// Memory, files and signal handlers are shared. The thread's number is stored in its word before it begins; when it
// leaves, the word is cleared, and one who waits there is woken.
enum {
    CLONE_VM = 0x100,
    CLONE_FS = 0x200,
    CLONE_FILES = 0x400,
    CLONE_SIGHAND = 0x800,
    CLONE_THREAD = 0x10000,
    CLONE_SYSVSEM = 0x40000,
    CLONE_PARENT_SETTID = 0x100000,
    CLONE_CHILD_CLEARTID = 0x200000,
    CLONE_FLAGS = CLONE_VM | CLONE_FS | CLONE_FILES | CLONE_SIGHAND | CLONE_THREAD | CLONE_SYSVSEM
        | CLONE_PARENT_SETTID | CLONE_CHILD_CLEARTID
};

enum { STACK_BYTES = 16384 };

struct thread {
    int word;
    char stack[STACK_BYTES] __attribute__((aligned(16)));
};

// Starts a thread that does work(with) and leaves. The answer is its number, or the negative number of an error. The
// system call returns in both threads, in the new one with 0 and on its own stack.
static inline long start_thread(struct thread *thread, void (*work)(void *with), void *with)
{
    register long x8 __asm__("x8") = CALL_CLONE;
    register long x0 __asm__("x0") = CLONE_FLAGS;
    register char *x1 __asm__("x1") = thread->stack + STACK_BYTES;
    register int *x2 __asm__("x2") = &thread->word;
    register long x3 __asm__("x3") = 0;
    register int *x4 __asm__("x4") = &thread->word;
    register void (*x5)(void *) __asm__("x5") = work;
    register void *x6 __asm__("x6") = with;

    __asm__ volatile("svc #0\n\t"
                     "cbnz x0, 1f\n\t"
                     "mov x0, x6\n\t"
                     "blr x5\n\t"
                     "mov x0, #0\n\t"
                     "mov x8, #93\n\t" // exit
                     "svc #0\n"
                     "1:"
                     : "+r"(x0)
                     : "r"(x8), "r"(x1), "r"(x2), "r"(x3), "r"(x4), "r"(x5), "r"(x6)
                     : CHANGED_BY_CALLS);
    return x0;
}

// At a word, for as long as it takes. Where a thread is to wait, and the word has another value, it doesn't.
static inline long futex(int *word, long operation, long value)
{
    register long x8 __asm__("x8") = CALL_FUTEX;
    register int *x0 __asm__("x0") = word;
    register long x1 __asm__("x1") = operation;
    register long x2 __asm__("x2") = value;
    register long x3 __asm__("x3") = 0;

    __asm__ volatile("svc #0" : "+r"(x0) : "r"(x8), "r"(x1), "r"(x2), "r"(x3) : CHANGED_BY_CALLS);
    return (long)x0;
}

// Waits until a thread has left.
static inline void join_thread(struct thread *thread)
{
    int word;

    while ((word = __atomic_load_n(&thread->word, __ATOMIC_ACQUIRE)) != 0)
        futex(&thread->word, FUTEX_WAIT, word);
}

// The number of the thread that asks.
static inline long thread_number(void)
{
    return system_call(CALL_GETTID, 0, 0, 0);
}

#endif
