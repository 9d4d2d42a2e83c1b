/* An allocator over brk for small blocks and over mmap for large ones, and what uses it: lists, a search tree, a hash
   table that grows, a sorted array that grows, and blocks that are given back and taken again. */
#include "guest.h"

enum { LARGE = 65536, CLASSES = 12, HEAD = 16 };

struct block {
    u64 size;
    struct block *next;
};

static struct block *free_blocks[CLASSES];
static u64 heap_at, heap_end, mapped_bytes, taken_blocks, reused_blocks;

static NOINLINE void *grow(u64 bytes)
{
    if (heap_at == 0)
        heap_at = heap_end = (u64)system_call(SYS_BRK, 0, 0, 0, 0);
    if (heap_at + bytes > heap_end) {
        u64 wanted = heap_end + (bytes + 0x7FFF) / 0x8000 * 0x8000;
        if ((u64)system_call(SYS_BRK, (i64)wanted, 0, 0, 0) != wanted)
            return 0;
        heap_end = wanted;
    }
    void *here = (void *)heap_at;
    heap_at += bytes;
    return here;
}

static u32 class_of(u64 size)
{
    u32 k = 0;
    while ((32ul << k) < size)
        k++;
    return k;
}

static NOINLINE void *take(u64 bytes)
{
    u64 size = bytes + HEAD;
    struct block *b;
    taken_blocks++;
    if (size > LARGE) {
        size = (size + 4095) / 4096 * 4096;
        i64 at = system_call(SYS_MMAP, 0, (i64)size, 3, 0x22);
        if (at < 0 && at > -4096)
            return 0;
        b = (struct block *)at;
        mapped_bytes += size;
    } else {
        u32 k = class_of(size);
        size = 32ul << k;
        b = free_blocks[k];
        if (b) {
            free_blocks[k] = b->next;
            reused_blocks++;
        } else if (!(b = grow(size)))
            return 0;
    }
    b->size = size;
    return (u8 *)b + HEAD;
}

static NOINLINE void give(void *p)
{
    struct block *b = (struct block *)((u8 *)p - HEAD);
    if (b->size > LARGE) {
        mapped_bytes -= b->size;
        system_call(SYS_MUNMAP, (i64)b, (i64)b->size, 0, 0);
        return;
    }
    u32 k = class_of(b->size);
    b->next = free_blocks[k];
    free_blocks[k] = b;
}

static NOINLINE void *resize(void *p, u64 old, u64 bytes)
{
    void *q = take(bytes);
    memcpy(q, p, old);
    give(p);
    return q;
}

/* ---- a list, turned round and taken apart */

struct link {
    struct link *next;
    u64 value;
};

static NOINLINE void lists(void)
{
    struct link *list = 0, *turned = 0;
    u64 sum = 0;
    for (u32 i = 0; i < 300; i++) {
        struct link *l = take(sizeof(*l));
        l->value = next() & 0xFFF;
        l->next = list;
        list = l;
    }
    while (list) {
        struct link *l = list;
        list = l->next;
        l->next = turned;
        turned = l;
    }
    for (u32 i = 0; turned; i++) {
        struct link *l = turned;
        turned = l->next;
        sum = sum * 31 + l->value;
        give(l);
    }
    print("list", (i64)(sum & 0xFFFFFFFF));
}

/* ---- a search tree */

struct node {
    struct node *less, *more;
    u32 key, count;
};

static NOINLINE struct node *insert(struct node *n, u32 key)
{
    if (!n) {
        n = take(sizeof(*n));
        n->less = n->more = 0;
        n->key = key;
        n->count = 1;
    } else if (key < n->key)
        n->less = insert(n->less, key);
    else if (key > n->key)
        n->more = insert(n->more, key);
    else
        n->count++;
    return n;
}

static NOINLINE u32 depth(const struct node *n)
{
    if (!n)
        return 0;
    u32 a = depth(n->less), b = depth(n->more);
    return 1 + (a > b ? a : b);
}

static NOINLINE u64 fold(const struct node *n, u64 h)
{
    if (!n)
        return h;
    h = fold(n->less, h);
    h = (h ^ n->key * 7 ^ n->count) * 0x100000001B3;
    return fold(n->more, h);
}

static NOINLINE void give_all(struct node *n)
{
    if (n) {
        give_all(n->less);
        give_all(n->more);
        give(n);
    }
}

static NOINLINE void trees(void)
{
    struct node *root = 0;
    for (u32 i = 0; i < 900; i++)
        root = insert(root, (u32)(next() % 700));
    print("depth", depth(root));
    put_text("in order ");
    put_hex(fold(root, 5), 16);
    put('\n');
    give_all(root);
}

/* ---- a hash table that grows */

static NOINLINE void tables(void)
{
    u64 size = 8, used = 0, *keys = take(8 * size);
    memset(keys, 0, 8 * size);
    for (u32 i = 0; i < 500; i++) {
        u64 key = next() % 611 + 1;
        if (2 * used >= size) {
            u64 *more = take(16 * size);
            memset(more, 0, 16 * size);
            for (u64 k = 0; k < size; k++)
                if (keys[k]) {
                    u64 at = keys[k] * 0x9E3779B97F4A7C15 >> 20 & (2 * size - 1);
                    while (more[at])
                        at = (at + 1) & (2 * size - 1);
                    more[at] = keys[k];
                }
            give(keys);
            keys = more;
            size *= 2;
        }
        u64 at = key * 0x9E3779B97F4A7C15 >> 20 & (size - 1);
        while (keys[at] && keys[at] != key)
            at = (at + 1) & (size - 1);
        used += !keys[at];
        keys[at] = key;
    }
    print("different", (i64)used);
    print("places", (i64)size);
    give(keys);
}

/* ---- an array that grows past what brk is used for, and is sorted */

static NOINLINE void sort(u32 *a, i64 n)
{
    for (i64 gap = n / 2; gap > 0; gap /= 2)
        for (i64 i = gap; i < n; i++)
            for (i64 k = i; k >= gap && a[k - gap] > a[k]; k -= gap) {
                u32 t = a[k];
                a[k] = a[k - gap];
                a[k - gap] = t;
            }
}

static NOINLINE void arrays(void)
{
    u64 room = 16, n = 0;
    u32 *a = take(4 * room);
    while (n < 2100) {
        if (n == room) {
            a = resize(a, 4 * n, 8 * room);
            room *= 2;
        }
        a[n++] = (u32)next();
    }
    sort(a, (i64)n);
    u32 wrong = 0;
    for (u64 i = 1; i < n; i++)
        wrong += a[i - 1] > a[i];
    print("wrong", wrong);
    print_hash("sorted", a, 4 * n);
    u8 *large = take(200000);
    u64 sum = 0;
    for (u32 i = 0; i < 200000; i += 4097) {
        sum += large[i];
        large[i] = 9;
    }
    print("zeros", (i64)sum);
    print("mapped", (i64)mapped_bytes);
    give(large);
    give(a);
}

/* ---- rights and refusals */

static NOINLINE void refusals(void)
{
    i64 page = system_call(SYS_MMAP, 0, 4096, 3, 0x22);
    *(u32 *)page = 0x21696821;
    print("read only", system_call(SYS_MPROTECT, page, 4096, 1, 0));
    print("written", system_call(SYS_WRITE, 1, page, 0, 0));
    print("not written", system_call(SYS_READ, 0, page, 4, 0));
    print("gone", system_call(SYS_MUNMAP, page, 4096, 0, 0));
    print("no page", system_call(SYS_WRITE, 1, page, 4, 0));
    print("no length", system_call(SYS_MMAP, 0, 0, 3, 0x22));
    print("no kind", system_call(SYS_MMAP, 0, 4096, 3, 0x20));
    print("no file", system_call(SYS_WRITE, 7, (i64)free_blocks, 4, 0));
    u64 top = (u64)system_call(SYS_BRK, 0, 0, 0, 0);
    print("given back", (u64)system_call(SYS_BRK, (i64)(top - 8192), 0, 0, 0) == top - 8192);
    print("taken again", (u64)system_call(SYS_BRK, (i64)top, 0, 0, 0) == top);
    print("zero again", *(u8 *)(top - 1));
}

int main(void)
{
    lists();
    trees();
    tables();
    arrays();
    lists();
    refusals();
    print("taken", (i64)taken_blocks);
    print("reused", (i64)reused_blocks);
    flush();
    return (int)(reused_blocks & 127);
}
