/* The start, the system calls, the printing. */

#include "integers.h"

/* ---- system calls and the start ---- */

NOINLINE i64 call3(u64 number, u64 a, u64 b, u64 c)
{
    register u64 x8 __asm__("x8") = number;
    register u64 x0 __asm__("x0") = a;
    register u64 x1 __asm__("x1") = b;
    register u64 x2 __asm__("x2") = c;
    __asm__ volatile("svc #0" : "+r"(x0) : "r"(x1), "r"(x2), "r"(x8) : "memory");
    return (i64)x0;
}

u8 stack[16384] __attribute__((aligned(16)));

__asm__(".globl _start\n"
        ".text\n"
        "_start:\n"
        "    adrp x0, stack\n"
        "    add x0, x0, :lo12:stack\n"
        "    add x0, x0, #16384\n"
        "    mov sp, x0\n"
        "    mov x29, #0\n"
        "    mov x30, #0\n"
        "    b run\n");

/* ---- memory ---- */

void *memcpy(void *to, const void *from, u64 count)
{
    u8 *t = to;
    const u8 *f = from;
    while (count >= 8) {
        *(u64 __attribute__((may_alias, aligned(1))) *)t = *(const u64 __attribute__((may_alias, aligned(1))) *)f;
        t += 8;
        f += 8;
        count -= 8;
    }
    while (count-- > 0)
        *t++ = *f++;
    return to;
}

void *memset(void *to, int value, u64 count)
{
    u8 *t = to;
    while (count-- > 0)
        *t++ = (u8)value;
    return to;
}

/* ---- printing ---- */

static u8 line[240];
static u64 used;
u64 printed_hash = 0xcbf29ce484222325;

NOINLINE void flush(void)
{
    const u8 *p = line;
    while (used > 0) {
        i64 n = call3(SYS_WRITE, 1, (u64)p, used);
        if (n <= 0)
            call3(SYS_EXIT, 125, 0, 0);
        p += n;
        used -= (u64)n;
    }
}

NOINLINE void put(char c)
{
    if (used == sizeof line)
        flush();
    line[used++] = (u8)c;
    printed_hash = (printed_hash ^ (u8)c) * 0x100000001b3;
}

static NOINLINE void put_text(const char *text)
{
    while (*text)
        put(*text++);
}

NOINLINE void put_decimal(u64 n)
{
    char digits[20];
    u64 count = 0;
    do {
        digits[count++] = (char)('0' + n % 10);
        n /= 10;
    } while (n != 0);
    while (count > 0)
        put(digits[--count]);
}

NOINLINE void put_signed(i64 n)
{
    if (n < 0) {
        put('-');
        put_decimal(0 - (u64)n);
    } else {
        put_decimal((u64)n);
    }
}

NOINLINE void put_hex(u64 n, u32 digits)
{
    while (digits-- > 0)
        put("0123456789abcdef"[n >> (4 * digits) & 15]);
}

void name(const char *text)
{
    put_text(text);
    put(' ');
}

void print_decimal(const char *text, u64 n)
{
    name(text);
    put_decimal(n);
    put('\n');
}

void print_signed(const char *text, i64 n)
{
    name(text);
    put_signed(n);
    put('\n');
}

void print_hex(const char *text, u64 n)
{
    name(text);
    put_hex(n, 16);
    put('\n');
}

/* ---- numbers that look random ---- */

static u64 seed = 88172645463325252;

NOINLINE u64 next(void)
{
    seed ^= seed << 13;
    seed ^= seed >> 7;
    seed ^= seed << 17;
    return seed;
}

u64 hidden(u64 n)
{
    __asm__ volatile("" : "+r"(n));
    return n;
}
