/* Recursion, a machine of its own, tables, shared memory, system registers. */

#include "integers.h"

/* ---- recursion ---- */

static NOINLINE u64 ackermann(u64 m, u64 n)
{
    if (m == 0)
        return n + 1;
    return ackermann(m - 1, n == 0 ? 1 : ackermann(m, n - 1));
}

static NOINLINE u32 fibonacci(u32 n)
{
    return n < 2 ? n : fibonacci(n - 1) + fibonacci(n - 2);
}

static u8 pegs[3][12];
static u8 heights[3];
static u32 moves;

static NOINLINE void hanoi(u32 discs, u32 from, u32 to)
{
    if (discs == 0)
        return;
    u32 other = 3 - from - to;
    hanoi(discs - 1, from, other);
    pegs[to][heights[to]++] = pegs[from][--heights[from]];
    moves++;
    hanoi(discs - 1, other, to);
}

static NOINLINE u32 queens(u32 columns, u32 left, u32 right)
{
    u32 free = ~(columns | left | right) & 0xff, found = 0;
    if (columns == 0xff)
        return 1;
    while (free != 0) {
        u32 bit = free & (0 - free);
        free ^= bit;
        found += queens(columns | bit, (left | bit) << 1, (right | bit) >> 1);
    }
    return found;
}

struct node {
    struct node *less, *more;
    i64 key;
};

static struct node pool[48];

static NOINLINE struct node *insert(struct node *root, struct node *new)
{
    if (root == 0)
        return new;
    if (new->key < root->key)
        root->less = insert(root->less, new);
    else
        root->more = insert(root->more, new);
    return root;
}

static NOINLINE u32 depth(const struct node *root)
{
    if (root == 0)
        return 0;
    u32 a = depth(root->less), b = depth(root->more);
    return 1 + (a > b ? a : b);
}

static NOINLINE u64 in_order(const struct node *root, u64 sum)
{
    if (root == 0)
        return sum;
    sum = in_order(root->less, sum);
    sum = sum * 0x9e3779b97f4a7c15 + (u64)root->key;
    return in_order(root->more, sum);
}

void recursion(void)
{
    print_decimal("ackermann", ackermann(2, hidden(5)));
    print_decimal("fibonacci", fibonacci((u32)hidden(14)));
    for (u32 i = 0; i < 7; i++)
        pegs[0][heights[0]++] = (u8)(7 - i);
    hanoi(7, 0, 2);
    print_decimal("moves", moves);
    print_decimal("top", (u64)pegs[2][heights[2] - 1] * 10 + pegs[2][0]);
    print_decimal("queens", queens(0, 0, 0));
    struct node *root = 0;
    for (u32 i = 0; i < COUNT(pool); i++) {
        pool[i].key = (i64)next() / 1000;
        root = insert(root, &pool[i]);
    }
    print_decimal("depth", depth(root));
    print_hex("in_order", in_order(root, 1));
}

/* ---- a small machine of its own, over a switch table and a table of functions ---- */

enum op { PUSH, ADD, SUB, MUL, DIV, DUP, SWAP, OVER, JUMP_IF, PRINT, PICK, STOP };

static const i16 collatz[] = {
    PUSH, 27, PUSH, 0, SWAP,                        /* count n */
    DUP, PUSH, 1, SUB, JUMP_IF, 14,                 /* at 5: n - 1 */
    SWAP, PRINT, STOP,
    SWAP, PUSH, 1, ADD, SWAP,                       /* at 14 */
    DUP, DUP, PUSH, 2, DIV, PUSH, 2, MUL, SUB, JUMP_IF, 37,
    PUSH, 2, DIV, PUSH, 1, JUMP_IF, 5,
    PUSH, 3, MUL, PUSH, 1, ADD, PUSH, 1, JUMP_IF, 5 /* at 37 */
};

static NOINLINE i64 interpret(const i16 *code, u32 *steps)
{
    i64 s[16];
    i64 *top = s;
    i64 kept;
    *steps = 0;
    for (;;) {
        ++*steps;
        switch ((enum op)*code++) {
        case PUSH: *top++ = *code++; break;
        case ADD: top--; top[-1] += *top; break;
        case SUB: top--; top[-1] -= *top; break;
        case MUL: top--; top[-1] *= *top; break;
        case DIV: top--; top[-1] = top[-1] / *top; break;
        case DUP: *top = top[-1]; top++; break;
        case SWAP: kept = top[-1]; top[-1] = top[-2]; top[-2] = kept; break;
        case OVER: *top = top[-2]; top++; break;
        case JUMP_IF: top--; if (*top != 0) code = collatz + *code; else code++; break;
        case PRINT: print_signed("stack", *--top); break;
        case PICK: top[-1] = top[-2 - top[-1]]; break;
        case STOP: return *--top;
        }
    }
}

static u64 plus(u64 a, u64 b) { return a + b; }
static u64 minus(u64 a, u64 b) { return a - b; }
static u64 times(u64 a, u64 b) { return a * b; }
static u64 over(u64 a, u64 b) { return a / (b | 1); }
static u64 mixed(u64 a, u64 b) { return (a ^ b >> 3) + (b << 5); }

typedef u64 binary(u64, u64);
static binary *const functions[] = {plus, minus, times, over, mixed};

static NOINLINE const char *letter_kind(u32 c)
{
    switch (c) {
    case 'a': case 'e': case 'i': case 'o': case 'u': return "vowel";
    case ' ': return "blank";
    case ',': case ';': case '.': case '-': return "sign";
    case '0' ... '9': return "digit";
    default: return c >= 'A' && c <= 'Z' ? "capital" : "other";
    }
}

void machine(void)
{
    u32 steps;
    print_signed("answer", interpret(collatz, &steps));
    print_decimal("steps", steps);
    u64 sum = 1;
    for (u32 i = 0; i < 40; i++)
        sum = sum * 3 + functions[next() % COUNT(functions)](sum, next() >> 20);
    print_hex("functions", sum);
    u32 kinds = 0;
    for (const char *p = text; *p; p++)
        kinds = kinds * 5 + (u8)letter_kind((u8)*p)[0];
    print_hex("kinds", kinds);
}

/* ---- tables ---- */

static u8 sieve[400];
static i32 left[6][6], right[6][6], product[6][6];
static u8 cells[2][10][10];

static NOINLINE u32 primes(void)
{
    u32 found = 0;
    for (u32 i = 2; i < sizeof sieve; i++)
        if (!sieve[i]) {
            found++;
            for (u32 j = i * i; j < sizeof sieve; j += i)
                sieve[j] = 1;
        }
    return found;
}

static NOINLINE i64 trace_of_product(void)
{
    i64 trace = 0;
    for (u32 i = 0; i < 6; i++)
        for (u32 j = 0; j < 6; j++) {
            left[i][j] = (i32)(i * 7 + j) - 20;
            right[i][j] = (i32)(i * j) - (i32)(next() % 9);
        }
    for (u32 i = 0; i < 6; i++)
        for (u32 j = 0; j < 6; j++) {
            i32 sum = 0;
            for (u32 k = 0; k < 6; k++)
                sum += left[i][k] * right[k][j];
            product[i][j] = sum;
        }
    for (u32 i = 0; i < 6; i++)
        trace += product[i][i];
    return trace;
}

static NOINLINE void step_cells(u8 (*from)[10], u8 (*to)[10])
{
    for (u32 y = 1; y < 9; y++)
        for (u32 x = 1; x < 9; x++) {
            u32 near = 0;
            for (u32 dy = 0; dy < 3; dy++)
                near += from[y + dy - 1][x - 1] + from[y + dy - 1][x] + from[y + dy - 1][x + 1];
            near -= from[y][x];
            to[y][x] = near == 3 || (near == 2 && from[y][x]);
        }
}

void tables(void)
{
    print_decimal("primes", primes());
    print_signed("trace", trace_of_product());
    cells[0][1][2] = cells[0][2][3] = cells[0][3][1] = cells[0][3][2] = cells[0][3][3] = 1;
    for (u32 i = 0; i < 6; i++)
        step_cells(cells[i & 1], cells[~i & 1]);
    for (u32 y = 1; y < 9; y++) {
        for (u32 x = 1; x < 9; x++)
            put(cells[0][y][x] ? '#' : '.');
        put('\n');
    }
}

/* ---- shared memory ---- */

static u64 shared_x;
static u32 shared_w;
static u16 shared_h;
static u8 shared_b;

void shared(void)
{
    for (u32 i = 1; i < 6; i++) {
        __atomic_fetch_add(&shared_x, i * 0x100000001ul, __ATOMIC_SEQ_CST);
        __atomic_fetch_sub(&shared_w, i, __ATOMIC_RELAXED);
        __atomic_fetch_xor(&shared_h, (u16)(i * 4099), __ATOMIC_ACQ_REL);
        __atomic_fetch_or(&shared_b, (u8)(1 << i), __ATOMIC_RELEASE);
        __sync_synchronize();
    }
    u64 wanted = hidden(15 * 0x100000001ul);
    u32 done = __atomic_compare_exchange_n(&shared_x, &wanted, 77, 0, __ATOMIC_SEQ_CST, __ATOMIC_SEQ_CST);
    done = done * 2 + (u32)__atomic_compare_exchange_n(&shared_x, &wanted, 78, 0, __ATOMIC_SEQ_CST, __ATOMIC_SEQ_CST);
    print_decimal("exchanged", done * 1000 + __atomic_load_n(&shared_x, __ATOMIC_ACQUIRE));
    print_hex("swapped", __atomic_exchange_n(&shared_w, 5, __ATOMIC_ACQ_REL));
    __atomic_store_n(&shared_h, (u16)(__atomic_load_n(&shared_h, __ATOMIC_ACQUIRE) + 1), __ATOMIC_RELEASE);
    __atomic_store_n(&shared_b, (u8)(__atomic_load_n(&shared_b, __ATOMIC_SEQ_CST) * 3), __ATOMIC_SEQ_CST);
    print_hex("shared", (u64)shared_w << 32 | (u64)shared_h << 16 | shared_b);
}

/* ---- a thread's pointer, the flags, and a word beside the instructions ---- */

static const u64 literals[2] __attribute__((used)) = {0x0123456789abcdef, 0xfedcba98};

void system_registers(void)
{
    u64 flags, wide;
    i64 narrow;
    __asm__ volatile("msr tpidr_el0, %0" : : "r"(hidden(0x7000)));
    print_decimal("thread", (u64)__builtin_thread_pointer() + 1);
    __asm__ volatile("msr nzcv, %1\n\tmrs %0, nzcv" : "=r"(flags) : "r"(hidden(0xa0000000)) : "cc");
    print_hex("flags", flags);
    __asm__ volatile("ldr %0, literals\n\tldrsw %1, literals + 8" : "=r"(wide), "=r"(narrow));
    print_hex("literals", wide ^ (u64)narrow);
    __builtin_prefetch(&literals[1]);
    __asm__ volatile("clrex\n\tdsb sy\n\tisb" : : : "memory");
}
