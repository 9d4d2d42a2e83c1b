/* Printing, copying and numbers that look random. */
#include "guest.h"

static char line[512];
static u64 used;
static u64 state = 0x9E3779B97F4A7C15;

void *memcpy(void *to, const void *from, u64 count)
{
    u8 *a = to;
    const u8 *b = from;
    for (u64 i = 0; i < count; i++) {
        a[i] = b[i];
        __asm__ volatile("" ::: "memory");
    }
    return to;
}

void *memset(void *to, int value, u64 count)
{
    u8 *a = to;
    for (u64 i = 0; i < count; i++) {
        a[i] = (u8)value;
        __asm__ volatile("" ::: "memory");
    }
    return to;
}

void flush(void)
{
    u64 at = 0;
    while (at < used) {
        i64 n = system_call(SYS_WRITE, 1, (i64)(line + at), (i64)(used - at), 0);
        if (n <= 0)
            break;
        at += (u64)n;
    }
    used = 0;
}

void put(char c)
{
    line[used++] = c;
    if (used == sizeof(line))
        flush();
}

void put_text(const char *text)
{
    while (*text)
        put(*text++);
}

void put_hex(u64 n, u32 digits)
{
    for (u32 k = digits; k > 0; k--)
        put("0123456789abcdef"[n >> (4 * (k - 1)) & 15]);
}

void put_number(i64 n)
{
    char digits[20];
    u32 count = 0;
    u64 rest = n < 0 ? -(u64)n : (u64)n;
    do
        digits[count++] = (char)('0' + rest % 10);
    while ((rest /= 10) != 0);
    if (n < 0)
        put('-');
    while (count > 0)
        put(digits[--count]);
}

void print(const char *name, i64 n)
{
    put_text(name);
    put(' ');
    put_number(n);
    put('\n');
}

u64 hash_of(const void *bytes, u64 count)
{
    const u8 *b = bytes;
    u64 h = 0xCBF29CE484222325;
    for (u64 i = 0; i < count; i++)
        h = (h ^ b[i]) * 0x100000001B3;
    return h;
}

void print_hash(const char *name, const void *bytes, u64 count)
{
    put_text(name);
    put(' ');
    put_hex(hash_of(bytes, count), 16);
    put('\n');
}

u64 next(void)
{
    state ^= state << 13;
    state ^= state >> 7;
    state ^= state << 17;
    return state;
}
