// The test of a vector kernel in one line: the kernel beside a reference, over every count of elements from 0 to three
// vectors, in guarded buffers at both ends, and at every alignment within a vector.
//
//     static void doubled(int *out, const int *a, unsigned long n) { .. }        // with vectors
//     static void doubled_by_one(int *out, const int *a, unsigned long n) { .. } // without
//
//     int main(void) { return TEST_MAP(doubled, doubled_by_one, int, int); }
//
// writes `doubled agrees`, and answers 0; or the first difference, and answers 1:
//
//     doubled parts: n 33, guarded at its end, alignment 60, element 32: wanted 00000042, got 00000000
//
// n is the count of elements, the alignment is that of the first input (of the data, where there is none) in bytes
// within a vector, and the numbers are hexadecimal. A load or a store outside of the buffers' pages is a trap (guest.h,
// 'Guarded buffers'). A byte that changed within two vectors before or behind the output is told, as `wrote 4 bytes
// behind its output`: the fourth byte behind it. What is written is the same at every length where all agrees, so
// `svemu sweep` and `svemu-lengths` compare the lengths as well.
//
//     TEST_MAP(kernel, reference, T, A)         void kernel(T *out, const A *a, unsigned long n)
//     TEST_MAP2(kernel, reference, T, A, B)     void kernel(T *out, const A *a, const B *b, unsigned long n)
//     TEST_FOLD(kernel, reference, T, A)        T kernel(const A *a, unsigned long n)
//     TEST_FOLD2(kernel, reference, T, A, B)    T kernel(const A *a, const B *b, unsigned long n)
//     TEST_UPDATE(kernel, reference, T)         void kernel(T *data, unsigned long n)
//
// The kernel is the name of a function, which is called by its address, so it stays a function of its own. In C++ it
// may be an instance of a template, in brackets: TEST_MAP((twice<int, 2>), (plain<int, 2>), int, int). In a program
// with symbols `svemu-diff --test` tells which step wrote the number that is wrong: the first difference is kept under
// the symbol kernel_test_difference.
//
// The types are of integers, and may be other than one another. For kernels of another kind there are the parts:
// FOR_EACH_COUNT, vector_bytes, fill_with_noise, guarded_end and its kin, and first_difference.

#ifndef KERNEL_TEST_H
#define KERNEL_TEST_H

#include "guest.h"

// n goes from first to last.
#define FOR_EACH_COUNT(n, first, last) for (unsigned long n = (first); n <= (unsigned long)(last); n++)

// The length of a vector in bytes.
static inline unsigned long vector_bytes(void)
{
    unsigned long bytes;

    __asm__ volatile("cntb %0" : "=r"(bytes));
    return bytes;
}

// The same bytes for the same seed. About every fourth element, of 1, 2, 4 or 8 bytes, is a number at an end of its
// type: 0, all ones, the least or the greatest signed one.
static inline void fill_with_noise(void *to, unsigned long count, unsigned long size, unsigned long seed)
{
    unsigned char *bytes = (unsigned char *)to;
    unsigned long state = seed * 2862933555777941757ul + 3037000493ul;

    for (unsigned long k = 0; k < count; k++) {
        unsigned long number;

        state = state * 6364136223846793005ul + 1442695040888963407ul;
        number = state >> 8;
        if ((state >> 60 & 3) == 0) {
            unsigned long top = 1ul << (8 * size - 1);
            unsigned long ends[4] = { 0, ~0ul, top, top - 1 };

            number = ends[state >> 62];
        }
        for (unsigned long j = 0; j < size; j++)
            bytes[k * size + j] = (unsigned char)(number >> (8 * j));
    }
}

// The place of the first element that isn't the same, or count.
static inline unsigned long first_difference(const void *a, const void *b, unsigned long count, unsigned long size)
{
    const unsigned char *left = (const unsigned char *)a;
    const unsigned char *right = (const unsigned char *)b;

    for (unsigned long k = 0; k < count * size; k++)
        if (left[k] != right[k])
            return k / size;
    return count;
}

// The number of an element in hexadecimal, two digits a byte.
static inline void put_element(const void *element, unsigned long size)
{
    const unsigned char *bytes = (const unsigned char *)element;

    for (unsigned long j = size; j-- > 0;) {
        char digits[2] = { "0123456789abcdef"[bytes[j] >> 4], "0123456789abcdef"[bytes[j] & 15] };

        write_bytes(1, digits, 2);
    }
}

// How the buffers of a call lie: guarded at their end; or at their begin, with so many elements before the first.
struct kernel_place {
    int at_end;
    unsigned long before;
};

// A buffer of n elements: its first element, the whole pages that it stands in, and their bytes.
struct kernel_buffer {
    unsigned char *first, *pages;
    unsigned long bytes;
};

// A test on its way. It goes from call to call by next_call: every count up to three vectors, guarded at the end and at
// the begin; then every alignment within a vector, for a count a bit below a vector and one a bit above two.
struct kernel_test {
    const char *name;
    unsigned long kernel; // its address
    // bytes of an element of the output and of the inputs, 0 of an input that there isn't; no two sizes are neighbours,
    // since clang stores neighbours that are equal by one Advanced SIMD register
    unsigned long out_size;
    unsigned long lanes; // of a vector
    unsigned long a_size;
    unsigned long calls; // that were prepared
    unsigned long b_size;
    // the output is one element, and not n; the output is the kernel's input too; a call differed
    int folds, updates, parts;
    // the call that is prepared
    struct kernel_place place;
    unsigned long n;
    struct kernel_buffer wanted, got, a, b;
};

enum { CANARY = 0xa5 };

// The first difference that the program's tests found, for svemu-diff: all zeros where there is none. The symbol is one
// for the whole program.
struct kernel_difference {
    unsigned long kernel;               // the kernel's address
    const unsigned char *at;            // the first byte of the element that is wrong, or of what was written outside
    unsigned long size;                 // its bytes
    const unsigned char *output;        // the output and its bytes
    unsigned long output_bytes;
    unsigned long answers;              // whether the kernel answers its result
};

#ifdef __cplusplus
extern "C" {
#endif
extern struct kernel_difference kernel_test_difference;
__attribute__((weak, section(".bss.kernel_test_difference"))) struct kernel_difference kernel_test_difference;
#ifdef __cplusplus
}
#endif

static inline int make_buffer(struct kernel_buffer *buffer, struct kernel_place place, unsigned long n,
                              unsigned long size)
{
    unsigned long page = GUARD_PAGE;

    buffer->bytes = ((n + place.before) * size + page - 1) / page * page;
    buffer->first = buffer->pages = (unsigned char *)guarded_begin(buffer->bytes);
    if (buffer->pages == 0)
        return 0;
    buffer->first += place.at_end ? buffer->bytes - n * size : place.before * size;
    guarded_tell(buffer->pages, buffer->first, n * size);
    return 1;
}

static inline void drop_buffer(struct kernel_buffer *buffer)
{
    if (buffer->pages != 0) {
        guarded_tell(buffer->first, buffer->pages, buffer->bytes);
        guarded_free(buffer->pages, buffer->bytes);
    }
    buffer->pages = 0;
}

static inline unsigned long outputs(const struct kernel_test *test)
{
    return test->folds ? 1 : test->n;
}

static inline void keep_difference(const struct kernel_test *test, const unsigned char *at, unsigned long size)
{
    struct kernel_difference *kept = &kernel_test_difference;

    if (kept->kernel != 0)
        return;
    kept->output = test->got.first;
    kept->size = size;
    kept->at = at;
    kept->output_bytes = outputs(test) * test->out_size;
    kept->answers = (unsigned long)test->folds;
    kept->kernel = test->kernel;
}

static inline void put_call(const struct kernel_test *test)
{
    const unsigned char *first = test->a_size == 0 ? test->got.first : test->a.first;

    put_text(test->name);
    put_text(" parts: n ");
    put_number((long)test->n);
    put_text(test->place.at_end ? ", guarded at its end" : ", guarded at its begin");
    put_text(", alignment ");
    put_number((long)((unsigned long)first % vector_bytes()));
}

// Whether the last call's output is the reference's.
static inline int output_agrees(const struct kernel_test *test)
{
    unsigned long size = test->out_size;
    unsigned long part = first_difference(test->wanted.first, test->got.first, outputs(test), size);

    if (part == outputs(test))
        return 1;
    keep_difference(test, test->got.first + part * size, size);
    put_call(test);
    if (!test->folds) {
        put_text(", element ");
        put_number((long)part);
    }
    put_text(": wanted ");
    put_element(test->wanted.first + part * size, size);
    put_text(", got ");
    put_element(test->got.first + part * size, size);
    put_text("\n");
    return 0;
}

// The bytes of the output's pages beside it, up to two vectors before it and two behind it.
static inline unsigned char *canaries_from(const struct kernel_test *test)
{
    unsigned long before = (unsigned long)(test->got.first - test->got.pages);

    return test->got.first - (before < 2 * vector_bytes() ? before : 2 * vector_bytes());
}

static inline unsigned char *canaries_to(const struct kernel_test *test)
{
    unsigned char *end = test->got.first + outputs(test) * test->out_size;
    unsigned long behind = (unsigned long)(test->got.pages + test->got.bytes - end);

    return end + (behind < 2 * vector_bytes() ? behind : 2 * vector_bytes());
}

static inline void set_canaries(const struct kernel_test *test)
{
    for (unsigned char *at = canaries_from(test); at != canaries_to(test); at++)
        *at = CANARY;
}

static inline int canaries_live(const struct kernel_test *test)
{
    const unsigned char *first = test->got.first;
    const unsigned char *end = first + outputs(test) * test->out_size;

    for (const unsigned char *at = canaries_from(test); at != canaries_to(test); at++)
        if ((at < first || at >= end) && *at != CANARY) {
            keep_difference(test, at, 1);
            put_call(test);
            put_text(": wrote ");
            put_number(at < first ? first - at : at - end + 1);
            put_text(at < first ? " bytes before its output\n" : " bytes behind its output\n");
            return 0;
        }
    return 1;
}

static inline void drop_call(struct kernel_test *test)
{
    drop_buffer(&test->got);
    drop_buffer(&test->wanted);
    drop_buffer(&test->b);
    drop_buffer(&test->a);
}

// Chooses the count and the place of the call of this number; 0 where there are no more.
static inline int choose_call(struct kernel_test *test, unsigned long number)
{
    unsigned long at_ends = 2 * (3 * test->lanes + 1);

    test->place.at_end = number < at_ends && number % 2 == 0;
    test->place.before = 0;
    test->n = number / 2;
    if (number >= at_ends) {
        test->place.before = (number - at_ends) / 2 + 1;
        test->n = number % 2 == 0 ? test->lanes - 1 : 2 * test->lanes + 1;
    }
    return test->place.before < test->lanes || number < at_ends;
}

static inline int prepare_call(struct kernel_test *test)
{
    if (!make_buffer(&test->wanted, test->place, outputs(test), test->out_size)
        || !make_buffer(&test->got, test->place, outputs(test), test->out_size)
        || (test->a_size != 0 && !make_buffer(&test->a, test->place, test->n, test->a_size))
        || (test->b_size != 0 && !make_buffer(&test->b, test->place, test->n, test->b_size)))
        return 0;
    set_canaries(test);
    fill_with_noise(test->a.first, test->a_size == 0 ? 0 : test->n, test->a_size, test->n + 1);
    fill_with_noise(test->b.first, test->b_size == 0 ? 0 : test->n, test->b_size, test->n + 100003);
    fill_with_noise(test->wanted.first, test->updates ? test->n : 0, test->out_size, test->n + 1);
    fill_with_noise(test->got.first, test->updates ? test->n : 0, test->out_size, test->n + 1);
    return 1;
}

// Compares what the last call gave, and prepares the next. 0 where there are no more, or one differed.
static inline int next_call(struct kernel_test *test)
{
    if (test->calls != 0) {
        test->parts = !output_agrees(test) || !canaries_live(test);
        drop_call(test);
    }
    if (test->parts)
        return 0;
    if (!choose_call(test, test->calls++)) {
        put_text(test->name);
        put_text(" agrees\n");
        return 0;
    }
    if (!prepare_call(test)) {
        put_text(test->name);
        put_text(" isn't tested: no memory\n");
        drop_call(test);
        test->parts = 1;
        return 0;
    }
    return 1;
}

static inline struct kernel_test new_test(const char *name, unsigned long kernel, unsigned long out_size,
                                          unsigned long a_size, unsigned long b_size, int folds, int updates)
{
    struct kernel_test test;
    unsigned char *bytes = (unsigned char *)&test;

    for (unsigned long k = 0; k < sizeof test; k++)
        bytes[k] = 0;
    test.name = name;
    test.kernel = kernel;
    test.out_size = out_size;
    test.a_size = a_size;
    test.b_size = b_size;
    test.folds = folds;
    test.updates = updates;
    test.lanes = vector_bytes() / (a_size == 0 ? out_size : a_size);
    return test;
}

// The type of a kernel's address. An instance of a template has none for g++ before it is taken.
#ifdef __cplusplus
#define KERNEL_TYPE(kernel) auto
#else
#define KERNEL_TYPE(kernel) __typeof__(&kernel)
#endif

// The five tests: 0 where all calls agree, else 1. The kernel is called by its address, which the compiler doesn't know.
#define TEST_CALLS(kernel, out_size, a_size, b_size, folds, updates, REFERENCE, KERNEL) \
    __extension__({ \
        KERNEL_TYPE(kernel) kernel_ = &kernel; \
        __asm__("" : "+r"(kernel_)); \
        struct kernel_test test_ = new_test(#kernel, (unsigned long)kernel_, out_size, a_size, b_size, folds, updates); \
        while (next_call(&test_)) { \
            REFERENCE; \
            KERNEL; \
        } \
        test_.parts; \
    })

#define TEST_MAP(kernel, reference, T, A) \
    TEST_CALLS(kernel, sizeof(T), sizeof(A), 0, 0, 0, \
        reference((T *)test_.wanted.first, (const A *)test_.a.first, test_.n), \
        kernel_((T *)test_.got.first, (const A *)test_.a.first, test_.n))

#define TEST_MAP2(kernel, reference, T, A, B) \
    TEST_CALLS(kernel, sizeof(T), sizeof(A), sizeof(B), 0, 0, \
        reference((T *)test_.wanted.first, (const A *)test_.a.first, (const B *)test_.b.first, test_.n), \
        kernel_((T *)test_.got.first, (const A *)test_.a.first, (const B *)test_.b.first, test_.n))

#define TEST_FOLD(kernel, reference, T, A) \
    TEST_CALLS(kernel, sizeof(T), sizeof(A), 0, 1, 0, \
        *(T *)test_.wanted.first = reference((const A *)test_.a.first, test_.n), \
        *(T *)test_.got.first = kernel_((const A *)test_.a.first, test_.n))

#define TEST_FOLD2(kernel, reference, T, A, B) \
    TEST_CALLS(kernel, sizeof(T), sizeof(A), sizeof(B), 1, 0, \
        *(T *)test_.wanted.first = reference((const A *)test_.a.first, (const B *)test_.b.first, test_.n), \
        *(T *)test_.got.first = kernel_((const A *)test_.a.first, (const B *)test_.b.first, test_.n))

#define TEST_UPDATE(kernel, reference, T) \
    TEST_CALLS(kernel, sizeof(T), 0, 0, 0, 1, reference((T *)test_.wanted.first, test_.n), \
        kernel_((T *)test_.got.first, test_.n))

#endif
