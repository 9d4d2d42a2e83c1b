/* Sorting and hashing. */

#include "integers.h"

/* ---- sorting ---- */

static void sift_down(i32 *a, u64 start, u64 count)
{
    u64 root = start;
    for (;;) {
        u64 child = 2 * root + 1;
        if (child >= count)
            return;
        if (child + 1 < count && a[child] < a[child + 1])
            child++;
        if (a[root] >= a[child])
            return;
        i32 kept = a[root];
        a[root] = a[child];
        a[child] = kept;
        root = child;
    }
}

static NOINLINE void heap_sort(i32 *a, u64 count)
{
    for (u64 i = count / 2; i-- > 0;)
        sift_down(a, i, count);
    for (u64 last = count; last-- > 1;) {
        i32 kept = a[0];
        a[0] = a[last];
        a[last] = kept;
        sift_down(a, 0, last);
    }
}

struct record {
    u64 key;
    i16 small;
    u8 tag;
    i32 number;
    u64 more;
};

typedef int compare(const struct record *, const struct record *);

static int by_key(const struct record *a, const struct record *b)
{
    return (a->key > b->key) - (a->key < b->key);
}

static int by_small(const struct record *a, const struct record *b)
{
    return a->small != b->small ? a->small - b->small : by_key(a, b);
}

static int by_tag(const struct record *a, const struct record *b)
{
    return a->tag != b->tag ? (int)b->tag - (int)a->tag : by_key(a, b);
}

static NOINLINE void quick_sort(struct record *a, i64 low, i64 high, compare *order)
{
    while (low < high) {
        struct record pivot = a[low + (high - low) / 2];
        i64 i = low, j = high;
        while (i <= j) {
            while (order(&a[i], &pivot) < 0)
                i++;
            while (order(&a[j], &pivot) > 0)
                j--;
            if (i <= j) {
                struct record kept = a[i];
                a[i++] = a[j];
                a[j--] = kept;
            }
        }
        if (j - low < high - i) {
            quick_sort(a, low, j, order);
            low = i;
        } else {
            quick_sort(a, i, high, order);
            high = j;
        }
    }
}

static NOINLINE void insertion_sort(i8 *a, u32 count)
{
    for (u32 i = 1; i < count; i++) {
        i8 value = a[i];
        i32 j = (i32)i - 1;
        for (; j >= 0 && a[j] > value; j--)
            a[j + 1] = a[j];
        a[j + 1] = value;
    }
}

static NOINLINE void shell_sort(u16 *a, u32 count)
{
    for (u32 gap = count / 2; gap > 0; gap /= 2)
        for (u32 i = gap; i < count; i++) {
            u16 value = a[i];
            u32 j = i;
            for (; j >= gap && a[j - gap] > value; j -= gap)
                a[j] = a[j - gap];
            a[j] = value;
        }
}

static NOINLINE i64 place_of(const i32 *a, u64 count, i32 wanted)
{
    u64 low = 0, high = count;
    while (low < high) {
        u64 middle = (low + high) / 2;
        if (a[middle] < wanted)
            low = middle + 1;
        else
            high = middle;
    }
    return low < count && a[low] == wanted ? (i64)low : -1;
}

static i32 words[160];
static struct record records[40];
static i8 bytes[48];
static u16 halves[64];

static void print_records(const char *text, compare *order)
{
    quick_sort(records, 0, COUNT(records) - 1, order);
    u64 sum = 0;
    for (u32 i = 0; i < COUNT(records); i++)
        sum = sum * 31 + records[i].key + (u64)(i64)records[i].small * records[i].tag + records[i].more;
    print_hex(text, sum);
}

void sorting(void)
{
    for (u32 i = 0; i < COUNT(words); i++)
        words[i] = (i32)next() >> (i % 24);
    i32 wanted = words[77];
    heap_sort(words, COUNT(words));
    name("heap");
    for (u32 i = 0; i < COUNT(words); i += 32) {
        put_signed(words[i]);
        put(' ');
    }
    put('\n');
    print_signed("found", words[place_of(words, COUNT(words), wanted)] - wanted);
    print_signed("missing", place_of(words, COUNT(words), words[3] + 1));

    for (u32 i = 0; i < COUNT(records); i++) {
        struct record r = {next(), (i16)next() % 50, (u8)(next() % 5), (i32)i, next() >> 40};
        records[i] = r;
    }
    print_records("by_key", by_key);
    print_records("by_small", by_small);
    print_records("by_tag", by_tag);

    for (u32 i = 0; i < COUNT(bytes); i++)
        bytes[i] = (i8)(next() >> 9);
    insertion_sort(bytes, COUNT(bytes));
    name("bytes");
    for (u32 i = 0; i < COUNT(bytes); i += 7) {
        put_signed(bytes[i]);
        put(' ');
    }
    put('\n');
    for (u32 i = 0; i < COUNT(halves); i++)
        halves[i] = (u16)(next() >> 20);
    shell_sort(halves, COUNT(halves));
    name("halves");
    for (u32 i = 0; i < COUNT(halves); i += 9) {
        put_decimal(halves[i]);
        put(' ');
    }
    put('\n');
}

/* ---- hashing ---- */

const char text[] = "The quick brown fox jumps over 13 lazy dogs; then it rests - until the next text is hashed, and so on.";

static u64 length(const char *text)
{
    const char *p = text;
    while (*p)
        p++;
    return (u64)(p - text);
}

static NOINLINE u32 fnv_32(const u8 *p, u64 count)
{
    u32 h = 0x811c9dc5;
    while (count-- > 0)
        h = (h ^ *p++) * 0x01000193;
    return h;
}

static u32 crc_table[256];

static NOINLINE void fill_crc_table(void)
{
    for (u32 i = 0; i < 256; i += 1) {
        u32 c = i;
        for (u32 k = 0; k < 8; k++)
            c = c & 1 ? c >> 1 ^ 0xedb88320 : c >> 1;
        crc_table[i] = c;
    }
}

static NOINLINE u32 crc_32(const u8 *p, u64 count)
{
    u32 c = 0xffffffff;
    while (count-- > 0)
        c = crc_table[(c ^ *p++) & 255] ^ c >> 8;
    return ~c;
}

static NOINLINE u32 adler_32(const u8 *p, u64 count)
{
    u32 a = 1, b = 0;
    while (count-- > 0) {
        a = (a + *p++) % 65521;
        b = (b + a) % 65521;
    }
    return b << 16 | a;
}

static u32 rotated(u32 x, u32 n)
{
    return x >> n | x << (32 - n);
}

static const u32 sha_constants[64] = {
    0x428a2f98, 0x71374491, 0xb5c0fbcf, 0xe9b5dba5, 0x3956c25b, 0x59f111f1, 0x923f82a4, 0xab1c5ed5,
    0xd807aa98, 0x12835b01, 0x243185be, 0x550c7dc3, 0x72be5d74, 0x80deb1fe, 0x9bdc06a7, 0xc19bf174,
    0xe49b69c1, 0xefbe4786, 0x0fc19dc6, 0x240ca1cc, 0x2de92c6f, 0x4a7484aa, 0x5cb0a9dc, 0x76f988da,
    0x983e5152, 0xa831c66d, 0xb00327c8, 0xbf597fc7, 0xc6e00bf3, 0xd5a79147, 0x06ca6351, 0x14292967,
    0x27b70a85, 0x2e1b2138, 0x4d2c6dfc, 0x53380d13, 0x650a7354, 0x766a0abb, 0x81c2c92e, 0x92722c85,
    0xa2bfe8a1, 0xa81a664b, 0xc24b8b70, 0xc76c51a3, 0xd192e819, 0xd6990624, 0xf40e3585, 0x106aa070,
    0x19a4c116, 0x1e376c08, 0x2748774c, 0x34b0bcb5, 0x391c0cb3, 0x4ed8aa4a, 0x5b9cca4f, 0x682e6ff3,
    0x748f82ee, 0x78a5636f, 0x84c87814, 0x8cc70208, 0x90befffa, 0xa4506ceb, 0xbef9a3f7, 0xc67178f2};

static NOINLINE void sha_block(u32 *state, const u8 *block)
{
    u32 w[64];
    for (u32 i = 0; i < 16; i++) {
        u32 value;
        __builtin_memcpy(&value, block + 4 * i, 4);
        w[i] = __builtin_bswap32(value);
    }
    for (u32 i = 16; i < 64; i++) {
        u32 a = w[i - 15], b = w[i - 2];
        w[i] = w[i - 16] + w[i - 7] + (rotated(a, 7) ^ rotated(a, 18) ^ a >> 3) + (rotated(b, 17) ^ rotated(b, 19) ^ b >> 10);
    }
    u32 s[8];
    for (u32 i = 0; i < 8; i++)
        s[i] = state[i];
    for (u32 i = 0; i < 64; i++) {
        u32 big_1 = rotated(s[4], 6) ^ rotated(s[4], 11) ^ rotated(s[4], 25);
        u32 choice = (s[4] & s[5]) ^ (~s[4] & s[6]);
        u32 t_1 = s[7] + big_1 + choice + sha_constants[i] + w[i];
        u32 big_0 = rotated(s[0], 2) ^ rotated(s[0], 13) ^ rotated(s[0], 22);
        u32 most = (s[0] & s[1]) ^ (s[0] & s[2]) ^ (s[1] & s[2]);
        for (u32 k = 7; k > 0; k--)
            s[k] = s[k - 1];
        s[4] += t_1;
        s[0] = t_1 + big_0 + most;
    }
    for (u32 i = 0; i < 8; i++)
        state[i] += s[i];
}

static NOINLINE void sha_256(u32 *state, const u8 *p, u64 count)
{
    static const u32 start[8] = {0x6a09e667, 0xbb67ae85, 0x3c6ef372, 0xa54ff53a, 0x510e527f, 0x9b05688c, 0x1f83d9ab, 0x5be0cd19};
    u8 last[128];
    u64 bits = count * 8;
    for (u32 i = 0; i < 8; i++)
        state[i] = start[i];
    for (; count >= 64; p += 64, count -= 64)
        sha_block(state, p);
    u64 size = count < 56 ? 64 : 128;
    memset(last, 0, sizeof last);
    memcpy(last, p, count);
    last[count] = 0x80;
    u64 big = __builtin_bswap64(bits);
    __builtin_memcpy(last + size - 8, &big, 8);
    for (u64 at = 0; at < size; at += 64)
        sha_block(state, last + at);
}

void hashing(void)
{
    const u8 *p = (const u8 *)text;
    u64 count = length(text);
    print_decimal("length", count);
    print_hex("fnv", fnv_32(p, count));
    fill_crc_table();
    print_hex("crc", crc_32(p, count));
    print_hex("check", crc_32((const u8 *)"123456789", 9));
    print_hex("adler", adler_32(p, count));
    u32 state[8];
    sha_256(state, (const u8 *)"abc", 3);
    name("sha_abc");
    for (u32 i = 0; i < 8; i++)
        put_hex(state[i], 8);
    put('\n');
    sha_256(state, p, count);
    name("sha_text");
    for (u32 i = 0; i < 8; i++)
        put_hex(state[i], 8);
    put('\n');
}
