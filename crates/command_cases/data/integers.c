/* A freestanding program over whole numbers: it sorts, hashes, counts, divides, copies and prints, and exits with seven
   bits of a hash of all that it printed. It needs no C library, and only the system calls write and exit. */

#include "integers.h"

static NOINLINE void answers_of_calls(void)
{
    flush();
    print_signed("nothing", call3(SYS_WRITE, 1, (u64)text, 0));
    print_signed("bad_place", call3(SYS_WRITE, 1, 16, 4));
    print_signed("no_call", call3(SYS_NONE, 1, 2, 3));
}

__attribute__((noreturn, used)) void run(void)
{
    sorting();
    hashing();
    recursion();
    bit_tricks();
    arithmetic();
    sizes();
    machine();
    shared();
    tables();
    system_registers();
    answers_of_calls();
    print_hex("printed", printed_hash);
    flush();
    call3(SYS_EXIT, printed_hash & 127, 0, 0);
    for (;;)
        ;
}
