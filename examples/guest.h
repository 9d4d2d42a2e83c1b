// What a program without a C library needs to say something: two system calls, and text and numbers on standard output;
// and buffers that end, or begin, where memory does.

#ifndef GUEST_H
#define GUEST_H

// What a system call changes beside its answer: memory, and of the vector registers all but the low 128 bits.
#define CHANGED_BY_CALLS \
    "memory", "p0", "p1", "p2", "p3", "p4", "p5", "p6", "p7", "p8", "p9", "p10", "p11", "p12", "p13", "p14", "p15", \
    "z0", "z1", "z2", "z3", "z4", "z5", "z6", "z7", "z8", "z9", "z10", "z11", "z12", "z13", "z14", "z15", \
    "z16", "z17", "z18", "z19", "z20", "z21", "z22", "z23", "z24", "z25", "z26", "z27", "z28", "z29", "z30", "z31"

// The answer of the system call of this number. A negative one is an error's number.
static inline long system_call(long number, long first, long second, long third)
{
    register long x8 __asm__("x8") = number;
    register long x0 __asm__("x0") = first;
    register long x1 __asm__("x1") = second;
    register long x2 __asm__("x2") = third;

    __asm__ volatile("svc #0" : "+r"(x0) : "r"(x8), "r"(x1), "r"(x2) : CHANGED_BY_CALLS);
    return x0;
}

// The same with a fourth argument, and the two behind it that a mapping without a file has.
static inline long system_call_of_mapping(long number, long first, long second, long third, long fourth)
{
    register long x8 __asm__("x8") = number;
    register long x0 __asm__("x0") = first;
    register long x1 __asm__("x1") = second;
    register long x2 __asm__("x2") = third;
    register long x3 __asm__("x3") = fourth;
    register long x4 __asm__("x4") = -1;
    register long x5 __asm__("x5") = 0;

    __asm__ volatile("svc #0" : "+r"(x0) : "r"(x8), "r"(x1), "r"(x2), "r"(x3), "r"(x4), "r"(x5) : CHANGED_BY_CALLS);
    return x0;
}

static inline long read_bytes(int file, void *to, unsigned long count)
{
    return system_call(63, file, (long)to, (long)count);
}

static inline long write_bytes(int file, const void *from, unsigned long count)
{
    return system_call(64, file, (long)from, (long)count);
}

static inline unsigned long text_length(const char *text)
{
    unsigned long length = 0;

    while (text[length] != 0)
        length++;
    return length;
}

static inline void put_text(const char *text)
{
    write_bytes(1, text, text_length(text));
}

// In decimal.
static inline void put_number(long number)
{
    char digits[20];
    unsigned place = sizeof digits;
    unsigned long rest = number < 0 ? -(unsigned long)number : (unsigned long)number;

    do {
        digits[--place] = (char)('0' + rest % 10);
        rest /= 10;
    } while (rest != 0);
    if (number < 0)
        put_text("-");
    write_bytes(1, digits + place, sizeof digits - place);
}

// A line: a word, a blank and the number.
static inline void put_line(const char *word, long number)
{
    put_text(word);
    put_text(" ");
    put_number(number);
    put_text("\n");
}

// Guarded buffers. The classic error of vector code is a load by a full predicate where a partial one is meant: it
// reads behind the array, and passes as long as something is mapped there. Behind a guarded buffer there is nothing, so
// a load or a store of one byte too many is a trap. (First-faulting loads may ask for bytes there, and don't get them.)
//
// guarded_end(n) is n bytes whose end is the end of a page, with an unmapped page behind it; guarded_begin(n) is the
// mirror: n bytes whose begin is the begin of a page, with an unmapped page before it. All are zeros at first.
// guarded_copy(p, n) is a guarded_end(n) with the n bytes at p. guarded_free(p, n) unmaps the n bytes that one of these
// gave. Each gives a null pointer where no more memory is to be had. A program's own mapping of one page may take an
// unmapped page between two buffers, so map such pages first.

enum { GUARD_PAGE = 4096, GUARDS_TOLD = 256 };

// Where the guarded buffers stand, for whoever explains a trap: GUARDS_TOLD of them at a time. The symbol is one for
// the whole program.
struct guarded_buffer {
    unsigned char *begin;
    unsigned long count;
};

#ifdef __cplusplus
extern "C" {
#endif
extern struct guarded_buffer guarded_buffers[GUARDS_TOLD];
__attribute__((weak, section(".bss.guarded_buffers"))) struct guarded_buffer guarded_buffers[GUARDS_TOLD];
#ifdef __cplusplus
}
#endif

static inline void guarded_tell(unsigned char *before, unsigned char *begin, unsigned long count)
{
    for (unsigned long k = 0; k < GUARDS_TOLD; k++)
        if (guarded_buffers[k].begin == before) {
            guarded_buffers[k].begin = begin;
            guarded_buffers[k].count = count;
            return;
        }
}

// As many whole pages as hold n bytes, between two that aren't mapped.
static inline unsigned char *guarded_pages(unsigned long n, unsigned long *bytes)
{
    unsigned long page = GUARD_PAGE;
    long at;

    if (n > 1ul << 46)
        return 0;
    *bytes = (n + page - 1) / page * page;
    // mmap: read and write, private and anonymous; munmap
    at = system_call_of_mapping(222, 0, (long)(*bytes + 2 * page), 3, 0x22);
    if (at < 0)
        return 0;
    system_call(215, at, (long)page, 0);
    system_call(215, at + (long)(page + *bytes), (long)page, 0);
    return (unsigned char *)at + page;
}

static inline void *guarded_end(unsigned long n)
{
    unsigned long bytes;
    unsigned char *pages = guarded_pages(n, &bytes);

    if (pages == 0)
        return 0;
    guarded_tell(0, pages + bytes - n, n);
    return pages + bytes - n;
}

static inline void *guarded_begin(unsigned long n)
{
    unsigned long bytes;
    unsigned char *pages = guarded_pages(n, &bytes);

    if (pages == 0)
        return 0;
    guarded_tell(0, pages, n);
    return pages;
}

static inline void *guarded_copy(const void *from, unsigned long n)
{
    unsigned char *to = (unsigned char *)guarded_end(n);

    if (to != 0)
        for (unsigned long k = 0; k < n; k++)
            to[k] = ((const unsigned char *)from)[k];
    return to;
}

static inline void guarded_free(void *buffer, unsigned long n)
{
    unsigned long page = GUARD_PAGE;
    unsigned long first = (unsigned long)buffer / page * page;
    unsigned long end = ((unsigned long)buffer + n + page - 1) / page * page;

    if (buffer == 0)
        return;
    guarded_tell((unsigned char *)buffer, 0, 0);
    if (n != 0)
        system_call(215, (long)first, (long)(end - first), 0);
}

#ifdef __cplusplus
// A guarded buffer of count elements, which is unmapped with the object. Where no memory is to be had, it has none.
template <typename T> class guarded {
public:
    enum place { at_end, at_begin };

    explicit guarded(unsigned long count, place where = at_end)
        : first(static_cast<T *>(where == at_end ? guarded_end(count * sizeof(T)) : guarded_begin(count * sizeof(T)))),
          count(first == nullptr ? 0 : count)
    {
    }
    guarded(const T *from, unsigned long count)
        : first(static_cast<T *>(guarded_copy(from, count * sizeof(T)))), count(first == nullptr ? 0 : count)
    {
    }
    ~guarded() { guarded_free(first, count * sizeof(T)); }
    guarded(const guarded &) = delete;
    guarded &operator=(const guarded &) = delete;

    T *begin() const { return first; }
    T *end() const { return first + count; }
    unsigned long size() const { return count; }
    T &operator[](unsigned long k) const { return first[k]; }

private:
    T *first;
    unsigned long count;
};
#endif

#endif
