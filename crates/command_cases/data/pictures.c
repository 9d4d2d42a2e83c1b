/* A picture of bytes: blending, a threshold, a box blur, edges, a histogram that evens it out, mirrored and turned
   pictures, a scaled one, and counts of what is in it. All are plain loops. */
#include "guest.h"

enum { WIDE = 67, HIGH = 23, SIZE = WIDE * HIGH };

static u8 picture[SIZE], other[SIZE], mask[SIZE], result[SIZE];
static u16 sums[SIZE];
static u8 turned[SIZE], half_size[(WIDE / 2) * (HIGH / 2)];
static u32 counts[256];
static u8 levels[256];

static NOINLINE void paint(void)
{
    for (u32 y = 0; y < HIGH; y++)
        for (u32 x = 0; x < WIDE; x++) {
            picture[y * WIDE + x] = (u8)(x * 3 + y * 5 + (next() & 31));
            other[y * WIDE + x] = (u8)((x ^ y) * 7);
            mask[y * WIDE + x] = (u8)(next() >> 24);
        }
}

static NOINLINE void blend(u32 part)
{
    for (u32 i = 0; i < SIZE; i++)
        result[i] = (u8)((picture[i] * part + other[i] * (256 - part)) >> 8);
}

static NOINLINE void blend_by_mask(void)
{
    for (u32 i = 0; i < SIZE; i++)
        result[i] = (u8)((picture[i] * mask[i] + other[i] * (255 - mask[i]) + 127) >> 8);
}

static NOINLINE void threshold(u8 level)
{
    for (u32 i = 0; i < SIZE; i++)
        result[i] = picture[i] >= level ? 255 : 0;
}

static NOINLINE void brighten(i32 amount)
{
    for (u32 i = 0; i < SIZE; i++) {
        i32 v = picture[i] + amount;
        result[i] = (u8)(v < 0 ? 0 : v > 255 ? 255 : v);
    }
}

static NOINLINE void blur(void)
{
    for (u32 y = 0; y < HIGH; y++)
        for (u32 x = 1; x + 1 < WIDE; x++)
            sums[y * WIDE + x] = (u16)(picture[y * WIDE + x - 1] + picture[y * WIDE + x] + picture[y * WIDE + x + 1]);
    for (u32 y = 1; y + 1 < HIGH; y++)
        for (u32 x = 1; x + 1 < WIDE; x++)
            result[y * WIDE + x] = (u8)((sums[(y - 1) * WIDE + x] + sums[y * WIDE + x] + sums[(y + 1) * WIDE + x]) * 57 >> 9);
}

static NOINLINE void edges(void)
{
    for (u32 y = 1; y + 1 < HIGH; y++)
        for (u32 x = 1; x + 1 < WIDE; x++) {
            const u8 *p = picture + y * WIDE + x;
            i32 across = p[1] - p[-1];
            i32 down = p[WIDE] - p[-WIDE];
            i32 v = (across < 0 ? -across : across) + (down < 0 ? -down : down);
            result[y * WIDE + x] = (u8)(v > 255 ? 255 : v);
        }
}

static NOINLINE void count(void)
{
    for (u32 i = 0; i < 256; i++)
        counts[i] = 0;
    for (u32 i = 0; i < SIZE; i++)
        counts[picture[i]]++;
}

/* each level becomes the part of the picture that is darker */
static NOINLINE void even_out(void)
{
    u32 below = 0;
    for (u32 i = 0; i < 256; i++) {
        below += counts[i];
        levels[i] = (u8)(below * 255 / SIZE);
    }
    for (u32 i = 0; i < SIZE; i++)
        result[i] = levels[picture[i]];
}

static NOINLINE void mirror(void)
{
    for (u32 y = 0; y < HIGH; y++)
        for (u32 x = 0; x < WIDE; x++)
            result[y * WIDE + x] = picture[y * WIDE + (WIDE - 1 - x)];
}

static NOINLINE void turn(void)
{
    for (u32 y = 0; y < HIGH; y++)
        for (u32 x = 0; x < WIDE; x++)
            turned[x * HIGH + y] = picture[y * WIDE + x];
}

static NOINLINE void shrink(void)
{
    for (u32 y = 0; y < HIGH / 2; y++)
        for (u32 x = 0; x < WIDE / 2; x++) {
            __asm__ volatile("");
            const u8 *p = picture + 2 * y * WIDE + 2 * x;
            half_size[y * (WIDE / 2) + x] = (u8)((p[0] + p[1] + p[WIDE] + p[WIDE + 1] + 2) / 4);
        }
}

static NOINLINE u64 light(void)
{
    u64 sum = 0;
    for (u32 i = 0; i < SIZE; i++)
        sum += picture[i];
    return sum;
}

static NOINLINE u32 squared_difference(void)
{
    u32 sum = 0;
    for (u32 i = 0; i < SIZE; i++) {
        i32 d = picture[i] - other[i];
        sum += (u32)(d * d);
    }
    return sum;
}

static NOINLINE u32 count_equal(u8 level)
{
    u32 n = 0;
    for (u32 i = 0; i < SIZE; i++)
        n += picture[i] == level;
    return n;
}

/* a part of the picture as text, darkest to brightest */
static void show(const u8 *p)
{
    for (u32 y = 0; y < HIGH; y += 4) {
        for (u32 x = 0; x < WIDE; x += 2)
            put(" .:-=+*#"[p[y * WIDE + x] >> 5]);
        put('\n');
    }
}

int main(void)
{
    paint();
    print_hash("picture", picture, SIZE);
    show(picture);
    for (u32 part = 0; part <= 256; part += 64)
        blend(part), print_hash("blend", result, SIZE);
    blend_by_mask(), print_hash("by_mask", result, SIZE);
    threshold(120), print_hash("threshold", result, SIZE);
    show(result);
    brighten(60), print_hash("brighter", result, SIZE);
    brighten(-90), print_hash("darker", result, SIZE);
    blur(), print_hash("blur", result, SIZE);
    edges(), print_hash("edges", result, SIZE);
    show(result);
    count(), print_hash("counts", counts, sizeof(counts));
    even_out(), print_hash("even", result, SIZE);
    mirror(), print_hash("mirror", result, SIZE);
    turn(), print_hash("turned", turned, SIZE);
    shrink(), print_hash("half", half_size, sizeof(half_size));
    print("light", (i64)light());
    print("difference", (i64)squared_difference());
    for (u32 level = 0; level < 256; level += 51)
        print("equal", count_equal((u8)level));
    flush();
    return (int)(light() % 97);
}
