/* Bits, arithmetic, loads and stores of each size. */

#include "integers.h"

/* ---- bits ---- */

static NOINLINE u32 ones_of(u64 n)
{
    n = n - (n >> 1 & 0x5555555555555555);
    n = (n & 0x3333333333333333) + (n >> 2 & 0x3333333333333333);
    return (u32)(((n + (n >> 4)) & 0x0f0f0f0f0f0f0f0f) * 0x0101010101010101 >> 56);
}

static NOINLINE u64 spread(u32 n)
{
    u64 x = n;
    x = (x | x << 16) & 0x0000ffff0000ffff;
    x = (x | x << 8) & 0x00ff00ff00ff00ff;
    x = (x | x << 4) & 0x0f0f0f0f0f0f0f0f;
    x = (x | x << 2) & 0x3333333333333333;
    return (x | x << 1) & 0x5555555555555555;
}

struct fields {
    u32 a : 3;
    i32 b : 7;
    u32 c : 11;
    i32 d : 9;
    u64 e : 37;
    i64 f : 21;
};

static NOINLINE u64 fold_fields(struct fields *f, u64 n)
{
    f->a = (u32)n;
    f->b = (i32)(n >> 3);
    f->c = (u32)(n >> 17);
    f->d = (i32)(n >> 23);
    f->e = n >> 11;
    f->f = (i64)(n >> 40);
    return f->a + (u64)(i64)f->b * 3 + f->c * 5 + (u64)(i64)f->d * 7 + f->e * 11 + (u64)(i64)f->f * 13;
}

void bit_tricks(void)
{
    u64 sum = 0;
    struct fields f = {0, 0, 0, 0, 0, 0};
    for (u32 i = 0; i < 24; i++) {
        u64 n = next() >> (i * 5 % 61);
        u32 h = (u32)(n >> 7) | 1;
        n |= 1;
        sum = sum * 33 + (u64)__builtin_clzl(n) + (u64)__builtin_ctzl(n) * 2 + (u64)__builtin_clrsbl((i64)n) * 4;
        sum ^= (u64)__builtin_clz(h) + (u64)__builtin_ctz(h << (i & 15)) + (u64)__builtin_clrsb((i32)h);
        sum += __builtin_bswap64(n) ^ __builtin_bswap32(h) ^ __builtin_bswap16((u16)h);
        sum = (sum << 19 | sum >> 45) ^ (h << (i & 31) | h >> (-i & 31));
        sum += ones_of(n) + spread(h) + (n ^ n >> 1) + (n & ~sum) + (n | ~(u64)h) + ~(n ^ sum << 3);
        sum -= fold_fields(&f, n);
    }
    print_hex("bits", sum);
    print_decimal("ones", ones_of(hidden(0xfedcba9876543210)));
    print_hex("spread", spread((u32)hidden(0xdeadbeef)));
    print_hex("fields", fold_fields(&f, hidden(0x123456789abcdef0)));
}

/* ---- arithmetic ---- */

static NOINLINE u64 gcd(u64 a, u64 b)
{
    while (b != 0) {
        u64 rest = a % b;
        a = b;
        b = rest;
    }
    return a;
}

static NOINLINE u64 square_root(u64 n)
{
    u64 root = 0;
    for (u64 bit = 1ul << 62; bit != 0; bit >>= 2) {
        if (n >= root + bit) {
            n -= root + bit;
            root = (root >> 1) + bit;
        } else {
            root >>= 1;
        }
    }
    return root;
}

static NOINLINE u32 power_modulo(u32 base, u32 exponent, u32 modulus)
{
    u64 result = 1, b = base % modulus;
    for (; exponent != 0; exponent >>= 1) {
        if (exponent & 1)
            result = result * b % modulus;
        b = b * b % modulus;
    }
    return (u32)result;
}

static NOINLINE void put_wide(u128 n)
{
    char digits[40];
    u32 count = 0;
    do {
        u128 quotient = 0;
        u32 rest = 0;
        for (i32 i = 3; i >= 0; i--) {
            u64 part = (u64)rest << 32 | (u32)(n >> (32 * i));
            quotient = quotient << 32 | (u32)(part / 10);
            rest = (u32)(part % 10);
        }
        digits[count++] = (char)('0' + rest);
        n = quotient;
    } while (n != 0);
    while (count > 0)
        put(digits[--count]);
}

const i64 operands[12] = {0, 1, -1, 2, -7, 10, 0x7fffffff, -0x80000000l, 0x7fffffffffffffff, -0x7fffffffffffffff - 1, 12345678987654321, -1000000007};

static NOINLINE void quotients(void)
{
    u64 sum = 0;
    u32 overflows = 0;
    for (u32 i = 0; i < COUNT(operands); i++)
        for (u32 j = 1; j < COUNT(operands); j++) {
            i64 a = operands[i], b = operands[j], r;
            i32 c = (i32)a, d = (i32)b | 1, q;
            sum = sum * 7 + (u64)((i128)a * b >> 64) + (u64)((u128)(u64)a * (u64)b >> 64) * 3;
            if (b != -1)
                sum += (u64)(a / b) ^ (u64)(a % b);
            if (d != -1)
                sum ^= (u64)(i64)(c / d) + (u64)(i64)(c % d);
            sum += (u64)a / (u64)b - (u64)a % (u64)b + (u32)c / (u32)d + (u32)c % (u32)d;
            sum += (u64)((i64)c * d) - (u64)(u32)c * (u32)d;
            overflows += (u32)__builtin_add_overflow(a, b, &r) + (u32)__builtin_sub_overflow(c, d, &q) * 16;
            overflows += (u32)__builtin_mul_overflow(a, b, &r) * 256 + (u32)__builtin_mul_overflow(c, d, &q) * 4096;
            sum ^= (u64)(a >> (j * 5 & 63)) + ((u64)b << (i * 7 & 63)) + (u64)(i64)(c >> (j & 31)) + ((u32)d >> (i & 31));
            sum += (u64)(a < b) + (u64)((u64)a < (u64)b) * 2 + (u64)(c <= d) * 4 + (u64)(a > 0 && b < 0 && c != d) * 8;
        }
    print_hex("quotients", sum);
    print_hex("overflows", overflows);
}

void arithmetic(void)
{
    quotients();
    print_decimal("gcd", gcd(hidden(1234567890123456780), hidden(9876543210)));
    print_decimal("root", square_root(hidden(18446744073709551615ul)));
    print_decimal("power", power_modulo(3, (u32)hidden(1000003), 1000000007));
    u128 a = 0, b = 1;
    for (u32 i = 0; i < (u32)hidden(186); i++) {
        u128 sum = a + b;
        a = b;
        b = sum;
    }
    name("fibonacci_186");
    put_wide(a);
    put('\n');
    u128 factorial = 1;
    for (u32 i = 2; i <= (u32)hidden(33); i++)
        factorial *= i;
    name("factorial_33");
    put_wide(factorial);
    put('\n');
    name("difference");
    put_wide(a - factorial * 4);
    put('\n');
    i128 low = -(i128)hidden(5) << 70 >> 3;
    print_hex("wide_high", (u64)(low >> 64));
    print_hex("wide_low", (u64)low);
}

/* ---- loads and stores of each size ---- */

static u8 raw[64];
static i16 halves[16];
static i32 words[16];

struct __attribute__((packed)) packed {
    u8 a;
    u16 b;
    u32 c;
    u64 d;
    i16 e;
    i32 f;
    i8 g;
};

static NOINLINE u64 indexed(const i8 *b, const i16 *h, const i32 *w, const i64 *x, i32 i, u32 j)
{
    return (u64)(i64)b[i] + (u64)(i64)h[i] * 3 + (u64)(i64)w[i] * 5 + (u64)x[i] * 7
        + ((const u8 *)b)[j] + (u64)((const u16 *)h)[j] * 11 + (u64)((const u32 *)w)[j] * 13 + (u64)x[j] * 17
        + (u64)(i32)b[j] * 19 + (u64)((i32)h[i] ^ (i32)b[i]) * 23;
}

static NOINLINE u64 walked(const u8 *p, const u8 *end)
{
    u64 sum = 0;
    while (p != end) {
        sum = sum * 257 + *p++;
        sum ^= (u64)(i64)*(const i8 *)p++;
    }
    return sum;
}

static NOINLINE void shifted_copy(i64 *to, const i64 *from, u32 count)
{
    do {
        *to++ = *from++ + 1;
        *--to ^= (i64)count;
        to++;
    } while (--count != 0);
}

void sizes(void)
{
    for (u32 i = 0; i < COUNT(raw); i++)
        raw[i] = (u8)(next() >> 33);
    for (u32 i = 0; i < COUNT(halves); i++) {
        halves[i] = (i16)next();
        words[i] = (i32)next();
    }
    struct packed p;
    __builtin_memcpy(&p, raw + 3, sizeof p);
    print_hex("packed", (p.a + p.b + (u64)p.c * 3) ^ p.d ^ (u64)(i64)p.e ^ (u64)(i64)p.f * 5 ^ (u64)(i64)p.g);
    p.d = hidden(0x1122334455667788);
    p.e = (i16)hidden(0x99aa);
    p.c += 1;
    __builtin_memcpy(raw + 31, &p, sizeof p);
    print_hex("walked", walked(raw, raw + sizeof raw));
    u64 sum = 0;
    for (i32 i = -8; i < 8; i++)
        sum = sum * 5 + indexed((const i8 *)raw + 32, halves, words, operands, i & 7, (u32)(i + 8) % 12);
    print_hex("indexed", sum);
    i64 copy[12];
    shifted_copy(copy, operands, COUNT(copy));
    print_hex("copied", (u64)(copy[0] ^ copy[5] ^ copy[9] ^ copy[11]));
}
