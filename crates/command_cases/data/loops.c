/* Plain loops over arrays, which the compiler turns into vector loops: sums, products, folds, conditions, conversions,
   strides, a matrix product, a stencil and prefix sums, at every width. Nothing here speaks of vectors. */
#include "guest.h"

enum { N = 397 };

static u8 bytes[N], more_bytes[N], out_bytes[N];
static i16 halves[N], more_halves[N], out_halves[N];
static i32 words[N], more_words[N], out_words[N];
static i64 longs[N], more_longs[N], out_longs[N];
static u32 buckets[64];

static NOINLINE void fill(void)
{
    for (u32 i = 0; i < N; i++) {
        u64 r = next();
        bytes[i] = (u8)r;
        more_bytes[i] = (u8)(r >> 8);
        halves[i] = (i16)(r >> 16);
        more_halves[i] = (i16)(r >> 24);
        words[i] = (i32)(r >> 5);
        more_words[i] = (i32)(r >> 29);
        longs[i] = (i64)r;
        more_longs[i] = (i64)(r * 0x2545F4914F6CDD1D);
    }
}

/* ---- one lane from one lane, or from two */

static NOINLINE void add_bytes(u32 n)
{
    for (u32 i = 0; i < n; i++)
        out_bytes[i] = (u8)(bytes[i] + more_bytes[i]);
}

static NOINLINE void average_bytes(u32 n)
{
    for (u32 i = 0; i < n; i++)
        out_bytes[i] = (u8)((bytes[i] + more_bytes[i] + 1) >> 1);
}

static NOINLINE void saturate(u32 n)
{
    for (u32 i = 0; i < n; i++) {
        i32 sum = halves[i] + more_halves[i];
        out_halves[i] = (i16)(sum > 32767 ? 32767 : sum < -32768 ? -32768 : sum);
    }
}

static NOINLINE void multiply_add(i32 factor, u32 n)
{
    for (u32 i = 0; i < n; i++)
        out_words[i] = words[i] * factor + more_words[i];
}

static NOINLINE void shift_by_each(u32 n)
{
    for (u32 i = 0; i < n; i++)
        out_words[i] = (i32)((u32)words[i] << (more_words[i] & 31));
}

static NOINLINE void divide(u32 n)
{
    for (u32 i = 0; i < n; i++)
        out_words[i] = words[i] / ((more_words[i] & 1023) + 1);
}

static NOINLINE void logic(u32 n)
{
    for (u32 i = 0; i < n; i++)
        out_longs[i] = (longs[i] & more_longs[i]) ^ (~longs[i] | (more_longs[i] >> 7));
}

/* ---- conditions */

static NOINLINE void choose(u32 n)
{
    for (u32 i = 0; i < n; i++)
        out_words[i] = words[i] > more_words[i] ? words[i] - more_words[i] : more_words[i] ^ words[i];
}

static NOINLINE void store_some(u32 n)
{
    for (u32 i = 0; i < n; i++)
        if (halves[i] > 0)
            out_halves[i] = (i16)(more_halves[i] * 3);
}

static NOINLINE u32 count_less(u32 limit, u32 n)
{
    u32 count = 0;
    for (u32 i = 0; i < n; i++)
        count += bytes[i] < limit;
    return count;
}

/* ---- folds */

static NOINLINE i64 sum_of_words(u32 n)
{
    i64 sum = 0;
    for (u32 i = 0; i < n; i++)
        sum += words[i];
    return sum;
}

static NOINLINE i32 dot(u32 n)
{
    i32 sum = 0;
    for (u32 i = 0; i < n; i++)
        sum += halves[i] * more_halves[i];
    return sum;
}

static NOINLINE u32 distance(u32 n)
{
    u32 sum = 0;
    for (u32 i = 0; i < n; i++)
        sum += bytes[i] > more_bytes[i] ? bytes[i] - more_bytes[i] : more_bytes[i] - bytes[i];
    return sum;
}

static NOINLINE i64 greatest(u32 n)
{
    i64 best = longs[0];
    for (u32 i = 1; i < n; i++)
        best = longs[i] > best ? longs[i] : best;
    return best;
}

static NOINLINE i32 least(u32 n)
{
    i32 best = words[0];
    for (u32 i = 1; i < n; i++)
        best = words[i] < best ? words[i] : best;
    return best;
}

static NOINLINE u64 exclusive_or(u32 n)
{
    u64 all = 0;
    for (u32 i = 0; i < n; i++)
        all ^= (u64)longs[i];
    return all;
}

/* ---- widths that differ, strides, and loops in loops */

static NOINLINE void widen(u32 n)
{
    for (u32 i = 0; i < n; i++)
        out_longs[i] = (i64)halves[i] * words[i];
}

static NOINLINE void narrow(u32 n)
{
    for (u32 i = 0; i < n; i++)
        out_bytes[i] = (u8)(longs[i] >> 20);
}

static NOINLINE void backwards(u32 n)
{
    for (u32 i = 0; i < n; i++)
        out_words[i] = words[n - 1 - i] + (i32)i;
}

static NOINLINE void every_third(u32 n)
{
    for (u32 i = 0; 3 * i < n; i++)
        out_words[i] = words[3 * i] - 1;
}

static NOINLINE void smooth(u32 n)
{
    for (u32 i = 1; i + 1 < n; i++)
        out_halves[i] = (i16)((halves[i - 1] + 11 * halves[i] + halves[i + 1]) >> 4);
}

static NOINLINE void prefix_sums(u32 n)
{
    i64 sum = 0;
    for (u32 i = 0; i < n; i++)
        out_longs[i] = sum += words[i];
}

static NOINLINE void fill_buckets(u32 n)
{
    for (u32 i = 0; i < COUNT(buckets); i++)
        buckets[i] = 0;
    for (u32 i = 0; i < n; i++)
        buckets[bytes[i] & 63]++;
}

enum { SIDE = 19 };

static i32 left[SIDE][SIDE], right[SIDE][SIDE], product[SIDE][SIDE];

static NOINLINE void multiply(void)
{
    for (u32 i = 0; i < SIDE; i++)
        for (u32 j = 0; j < SIDE; j++) {
            left[i][j] = words[(i * SIDE + j) % N] >> 16;
            right[i][j] = more_words[(i + j * SIDE) % N] >> 18;
            product[i][j] = 0;
        }
    for (u32 i = 0; i < SIDE; i++)
        for (u32 k = 0; k < SIDE; k++)
            for (u32 j = 0; j < SIDE; j++)
                product[i][j] += left[i][k] * right[k][j];
}

int main(void)
{
    static const u32 lengths[] = {0, 1, 15, 16, 17, 64, 255, N};
    fill();
    for (u32 k = 0; k < COUNT(lengths); k++) {
        u32 n = lengths[k];
        print("n", n);
        add_bytes(n), print_hash("add_bytes", out_bytes, N);
        average_bytes(n), print_hash("average_bytes", out_bytes, N);
        saturate(n), print_hash("saturate", out_halves, 2 * N);
        multiply_add(-7, n), print_hash("multiply_add", out_words, 4 * N);
        shift_by_each(n), print_hash("shift_by_each", out_words, 4 * N);
        divide(n), print_hash("divide", out_words, 4 * N);
        logic(n), print_hash("logic", out_longs, 8 * N);
        choose(n), print_hash("choose", out_words, 4 * N);
        store_some(n), print_hash("store_some", out_halves, 2 * N);
        widen(n), print_hash("widen", out_longs, 8 * N);
        narrow(n), print_hash("narrow", out_bytes, N);
        backwards(n), print_hash("backwards", out_words, 4 * N);
        every_third(n), print_hash("every_third", out_words, 4 * N);
        smooth(n), print_hash("smooth", out_halves, 2 * N);
        prefix_sums(n), print_hash("prefix_sums", out_longs, 8 * N);
        fill_buckets(n), print_hash("buckets", buckets, sizeof(buckets));
        print("count_less", count_less(100, n));
        print("sum", sum_of_words(n));
        print("dot", dot(n));
        print("distance", distance(n));
        print("exclusive_or", (i64)exclusive_or(n));
        if (n != 0) {
            print("greatest", greatest(n));
            print("least", least(n));
        }
    }
    multiply();
    print_hash("product", product, sizeof(product));
    flush();
    return (int)(hash_of(product, sizeof(product)) & 63);
}
