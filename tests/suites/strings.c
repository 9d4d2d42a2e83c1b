// Tests one string function of a C library, CALL, of the kind that KIND says, against loops over bytes: all counts up to
// 3 vectors of 2048 bits by some steps, each at several alignments, and with buffers that end where memory does. It
// writes the number of calls and a number made of all answers, and answers how many were wrong.

#include "guest.h"

enum { COPY = 1, SET, FIND, FIND_LAST, FIND_ENDLESS, FIND_TEXT, FIND_OR_END, FIND_LAST_TEXT, LENGTH, LENGTH_WITHIN, COMPARE, COMPARE_TEXT,
       COMPARE_WITHIN, COPY_TEXT, COPY_TEXT_TO_END, COPY_OVER };

typedef unsigned char byte;

#if KIND == 1 || KIND == 16
void *CALL(void *to, const void *from, unsigned long count);
#elif KIND == 2
void *CALL(void *to, int value, unsigned long count);
#elif KIND == 3 || KIND == 4
void *CALL(const void *from, int value, unsigned long count);
#elif KIND == 5
void *CALL(const void *from, int value);
#elif KIND >= 6 && KIND <= 8
char *CALL(const char *from, int value);
#elif KIND == 9
unsigned long CALL(const char *text);
#elif KIND == 10
unsigned long CALL(const char *text, unsigned long most);
#elif KIND == 11
int CALL(const void *a, const void *b, unsigned long count);
#elif KIND == 12
int CALL(const char *a, const char *b);
#elif KIND == 13 || KIND == 14
char *CALL(char *to, const char *from);
#elif KIND == 15
int CALL(const char *a, const char *b, unsigned long count);
#endif

enum { MOST = 800, SPACE = 1024 };

static byte *first, *second;
static byte wanted[2 * SPACE];
static unsigned long calls, wrong, sum = 14695981039346656037ul;

static void tell(unsigned long answer, int right)
{
    calls++;
    wrong += !right;
    sum = (sum ^ answer) * 1099511628211ul;
}

static int sign(int number)
{
    return (number > 0) - (number < 0);
}

static int same(const byte *a, const byte *b, unsigned long count)
{
    for (unsigned long k = 0; k < count; k++)
        if (a[k] != b[k])
            return 0;
    return 1;
}

// Bytes that aren't 0, and only seldom the one that is looked for.
static void fill(byte *to, unsigned long count, unsigned long seed)
{
    for (unsigned long k = 0; k < count; k++)
        to[k] = (byte)(1 + (k * 7 + seed * 13) % 200);
}

// One call over count bytes, whose places in their buffers of SPACE bytes are at and at_other.
static void call(unsigned long count, unsigned long at, unsigned long at_other)
{
    byte *a = first + at;
    byte *b = second + at_other;

    (void)b;
    fill(first, SPACE, count);
    fill(second, SPACE, count + 1);
#if KIND == 1
    for (unsigned long k = 0; k < SPACE; k++)
        wanted[k] = second[k];
    for (unsigned long k = 0; k < count; k++)
        wanted[at_other + k] = a[k];
    tell(count, CALL(b, a, count) == b && same(second, wanted, SPACE));
#elif KIND == 16
    // The one over the other within one buffer.
    for (unsigned long k = 0; k < SPACE; k++)
        wanted[k] = first[k];
    for (unsigned long k = 0; k < count; k++)
        wanted[at_other + k] = a[k];
    tell(count, CALL(first + at_other, a, count) == first + at_other && same(first, wanted, SPACE));
#elif KIND == 2
    for (unsigned long k = 0; k < SPACE; k++)
        wanted[k] = first[k];
    for (unsigned long k = 0; k < count; k++)
        wanted[at + k] = (byte)(at_other * 11);
    tell(count, CALL(a, (int)(at_other * 11 + 256), count) == a && same(first, wanted, SPACE));
#elif KIND == 3 || KIND == 4 || KIND == 5
    for (unsigned long place = 0; place <= count; place += 1 + count / 5) {
        unsigned long other = KIND == 4 ? place / 2 : count - (count - place) / 2;

        fill(first, SPACE, count);
        if (place < count)
            a[place] = 222;
        if (place < count && other < count)
            a[other] = 222;
        if (KIND == 5 && place == count)
            continue;
        // A byte before and a byte behind don't count.
        if (at > 0)
            a[-1] = 222;
        if (KIND != 5 && at + count < SPACE)
            a[count] = 222;
#if KIND == 5
        tell(place, CALL(a, 222) == a + place);
#else
        tell(place, CALL(a, 222 + 512, count) == (place < count ? a + place : 0));
#endif
    }
#elif KIND >= 6 && KIND <= 8
    if (count == 0)
        return;
    for (unsigned long place = 0; place <= count; place += 1 + count / 5) {
        unsigned long end = count - 1;
        unsigned long other = KIND == 8 ? place / 2 : place + (end - (place < end ? place : end)) / 2;

        fill(first, SPACE, count);
        if (place < end)
            a[place] = a[other] = 222;
        a[end] = 0;
        if (end + at + 1 < SPACE)
            a[end + 1] = 222;
        tell(place, CALL((char *)a, 222) == (char *)(place < end ? a + place : KIND == 7 ? a + end : 0));
        tell(place, CALL((char *)a, 0) == (char *)a + end);
    }
#elif KIND == 9
    if (count == 0)
        return;
    a[count - 1] = 0;
    tell(count, CALL((char *)a) == count - 1);
#elif KIND == 10
    tell(count, CALL((char *)a, count) == count);
    if (count == 0)
        return;
    for (unsigned long place = 0; place < count; place += 1 + count / 5) {
        fill(first, SPACE, count);
        a[place] = 0;
        tell(place, CALL((char *)a, count) == place);
    }
#elif KIND == 11 || KIND == 12 || KIND == 15
    if (KIND != 11 && count == 0)
        return;
    for (unsigned long place = 0; place <= count; place += 1 + count / 5) {
        int order = 0, answer;

        fill(a, count, count);
        fill(b, count, count);
#if KIND != 11
        a[count - 1] = b[count - 1] = KIND == 12 ? 0 : 77;
#endif
        if (place < count) {
            b[place] = (byte)(a[place] + 130);
            order = a[place] < b[place] ? -1 : 1;
        }
#if KIND == 12
        a[count - 1] = 0;
        if (place + 1 == count)
            order = -1;
        answer = CALL((char *)a, (char *)b);
#elif KIND == 15
        // An end of both before the place is the end.
        if (place > 3 && place < count && (count & 1) == 1) {
            a[place - 2] = b[place - 2] = 0;
            order = 0;
        }
        answer = CALL((char *)a, (char *)b, count);
#else
        answer = CALL(a, b, count);
#endif
        tell((unsigned long)sign(answer), sign(answer) == order);
    }
#elif KIND == 13 || KIND == 14
    if (count == 0)
        return;
    a[count - 1] = 0;
    for (unsigned long k = 0; k < SPACE; k++)
        wanted[k] = second[k];
    for (unsigned long k = 0; k < count; k++)
        wanted[at_other + k] = a[k];
    tell(count, CALL((char *)b, (char *)a) == (char *)b + (KIND == 14 ? count - 1 : 0) && same(second, wanted, SPACE));
#endif
}

int main(void)
{
    first = guarded_end(SPACE);
    second = guarded_end(SPACE);
    for (unsigned long count = 0; count <= MOST; count += count < 70 ? 1 : count < 300 ? 13 : 61) {
        // From the front at some alignments, and up to the end of memory.
        for (unsigned long at = 0; at < 16; at += 5)
            call(count, at, (at * 3 + count) % 16);
        call(count, SPACE - count, SPACE - count);
        call(count, SPACE - count, 3);
    }
    put_line("calls", (long)calls);
    put_line("wrong", (long)wrong);
    put_line("answers", (long)(sum >> 1));
    return wrong != 0;
}
