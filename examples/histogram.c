// Counts how often each letter stands in a text, with a gather and a scatter.
//
// What to look at: a vector of letters may hold the same letter twice. With one counter a letter, both lanes would load
// the same counter, add 1 and store it, and one of them would be lost: more of them, the longer the vector. So each
// lane has a counter of its own for each letter, at letter * lanes + lane. No two lanes of a vector ever meet, the
// scatter is free of conflicts whatever the length, and the counters of a letter stand side by side, for one load and
// one fold at the end.
//
// The table is made for the longest vector, which has 64 lanes of 32 bits. Its counts are none of the kinds that
// kernel_test.h has a line for, so `counts_agree` is made of its parts: every count of bytes up to three vectors, of
// noise, at the end of a guarded buffer.

#include <arm_sve.h>
#include "kernel_test.h"

enum { BYTES = 256, MOST_LANES = 64 };

static const char text[] = "pack my box with five dozen liquor jugs; how vexingly quick daft zebras jump";
static unsigned counters[BYTES * MOST_LANES];

static void count_bytes(const unsigned char *bytes, unsigned long count)
{
    unsigned lanes = (unsigned)svcntw();
    svuint32_t lane = svindex_u32(0, 1);

    for (unsigned long i = 0; i < count; i += lanes) {
        svbool_t in = svwhilelt_b32(i, count);
        svuint32_t place = svmla_x(in, lane, svld1ub_u32(in, bytes + i), lanes);
        svuint32_t before = svld1_gather_index(in, counters, place);

        svst1_scatter_index(in, counters, place, svadd_x(in, before, 1));
    }
}

static unsigned long count_of(unsigned char byte)
{
    svbool_t all = svptrue_b32();

    return svaddv(all, svld1(all, counters + byte * svcntw()));
}

static void clear_counters(void)
{
    for (unsigned long i = 0; i < BYTES * MOST_LANES; i += svcntw())
        svst1(svwhilelt_b32(i, (unsigned long)(BYTES * MOST_LANES)), counters + i, svdup_u32(0));
}

// Whether so many bytes are counted as a plain loop counts them.
static int counts_agree(const unsigned char *bytes, unsigned long count)
{
    unsigned wanted[BYTES] = { 0 };

    for (unsigned long i = 0; i < count; i++)
        wanted[bytes[i]]++;
    clear_counters();
    count_bytes(bytes, count);
    for (unsigned byte = 0; byte < BYTES; byte++)
        if (count_of((unsigned char)byte) != wanted[byte]) {
            put_line("parts at byte", byte);
            return 0;
        }
    return 1;
}

static int all_counts_agree(void)
{
    FOR_EACH_COUNT(n, 0, 3 * svcntw()) {
        unsigned char *bytes = (unsigned char *)guarded_end(n);
        int agrees;

        if (bytes == 0)
            return 0;
        fill_with_noise(bytes, n, 1, n + 1);
        agrees = counts_agree(bytes, n);
        guarded_free(bytes, n);
        if (!agrees) {
            put_line("of so many bytes:", (long)n);
            return 0;
        }
    }
    put_text("all counts agree\n");
    return 1;
}

int main(void)
{
    count_bytes((const unsigned char *)text, sizeof text - 1);
    for (char letter = 'a'; letter <= 'z'; letter++) {
        char word[] = { letter, 0 };

        put_line(word, (long)count_of((unsigned char)letter));
    }
    return all_counts_agree() ? 0 : 1;
}
