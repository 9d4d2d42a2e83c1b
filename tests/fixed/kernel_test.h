// In place of examples/kernel_test.h: three calls of the kernel with counts of elements that don't go by the vector
// length, over arrays of the program, so that the runs at two lengths call the same. What the kernel gave is written.
#ifndef KERNEL_TEST_H
#define KERNEL_TEST_H

#include "guest.h"

enum { MOST = 300, ROOM = MOST + 256 };

static const unsigned long counts[3] = { 7, 33, MOST };

static inline unsigned long vector_bytes(void)
{
    unsigned long bytes;

    __asm__ volatile("cntb %0" : "=r"(bytes));
    return bytes;
}

static inline void fill(unsigned char *bytes, unsigned long count, unsigned long seed)
{
    unsigned long state = seed;

    for (unsigned long k = 0; k < count; k++) {
        state = state * 6364136223846793005ul + 1442695040888963407ul;
        bytes[k] = (unsigned char)(state >> 56);
    }
}

static inline long sum_of(const unsigned char *bytes, unsigned long count)
{
    long sum = 0;

    for (unsigned long k = 0; k < count; k++)
        sum += (long)(bytes[k] * (k + 1));
    return sum;
}

#define CALLS(T, A, B, CALL) \
    __extension__({ \
        static T out[ROOM]; \
        static A a[ROOM]; \
        static B b[ROOM]; \
        fill((unsigned char *)out, MOST * sizeof(T), 1); \
        fill((unsigned char *)a, MOST * sizeof(A), 2); \
        fill((unsigned char *)b, MOST * sizeof(B), 3); \
        for (int k = 0; k < 3; k++) { \
            unsigned long n = counts[k]; \
            CALL; \
            put_line("sum", sum_of((const unsigned char *)out, n * sizeof(T))); \
        } \
        0; \
    })

#define TEST_MAP(kernel, reference, T, A) CALLS(T, A, A, ((void)reference, kernel(out, a, n)))
#define TEST_MAP2(kernel, reference, T, A, B) CALLS(T, A, B, ((void)reference, kernel(out, a, b, n)))
#define TEST_FOLD(kernel, reference, T, A) CALLS(T, A, A, ((void)reference, out[0] = kernel(a, n)))
#define TEST_UPDATE(kernel, reference, T) CALLS(T, T, T, ((void)reference, kernel(out, n)))

#endif
