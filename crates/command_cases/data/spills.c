/* Functions whose vectors and predicates live across calls, so that they are kept on the stack: recursion over vectors,
   many of them at once, callee-saved ones, and alternating recursion that passes them as arguments. */
#include "guest.h"
#include <arm_sve.h>

enum { N = 96 };

static i32 numbers[N];
static u32 calls;

/* sums of a vector by halves: each call keeps its vector and its predicate over two calls */
static NOINLINE i64 sum_by_halves(svint32_t v, svbool_t p, u32 deep)
{
    calls++;
    u64 n = svcntp_b32(p, p);
    if (n <= 1 || deep == 0)
        return svaddv(p, v);
    svbool_t low = svwhilelt_b32(0u, (u32)(n / 2));
    i64 a = sum_by_halves(v, low, deep - 1);
    svint32_t rest = svsplice(svbic_z(p, p, low), v, v);
    i64 b = sum_by_halves(rest, svwhilelt_b32((u32)(n / 2), (u32)n), deep - 1);
    return a + b + svaddv(svpfalse(), v);
}

/* a polynomial by Horner's rule, recursively, over lanes */
static NOINLINE svint32_t horner(svint32_t x, u32 k, svbool_t p)
{
    calls++;
    if (k == 0)
        return svdup_s32(numbers[0]);
    svint32_t below = horner(x, k - 1, p);
    return svadd_x(p, svmul_x(p, below, x), numbers[k]);
}

/* two functions that call each other, and many vectors that live over the calls */
static NOINLINE svint32_t odd(svint32_t a, svint32_t b, svint32_t c, u32 k);

static NOINLINE svint32_t even(svint32_t a, svint32_t b, svint32_t c, u32 k)
{
    calls++;
    svbool_t all = svptrue_b32();
    if (k == 0)
        return sveor_x(all, a, svadd_x(all, b, c));
    svint32_t d = odd(b, c, a, k - 1);
    svint32_t e = k > 5 ? svadd_x(all, d, (i32)k) : odd(c, svsub_x(all, a, d), b, k / 2);
    return svmla_x(all, e, a, d);
}

static NOINLINE svint32_t odd(svint32_t a, svint32_t b, svint32_t c, u32 k)
{
    calls++;
    svbool_t all = svptrue_b32();
    svbool_t some = svcmpgt(all, a, b);
    if (k == 0)
        return svsel(some, a, c);
    svint32_t d = even(svsel(some, a, b), c, b, k - 1);
    return svsub_m(some, svadd_x(all, d, c), b);
}

/* the towers of Hanoi, with the discs of the three rods in vectors */
struct rods {
    u64 moves;
    u64 hash;
};

static NOINLINE void hanoi(struct rods *r, svint32_t from, svint32_t to, u32 discs)
{
    if (discs == 0)
        return;
    svbool_t all = svptrue_b32();
    hanoi(r, from, svadd_x(all, to, 1), discs - 1);
    r->moves++;
    r->hash = r->hash * 31 + (u64)svaddv(all, svsub_x(all, from, to));
    hanoi(r, svadd_x(all, from, 2), to, discs - 1);
}

/* bits of predicates over calls */
static NOINLINE u64 subsets(svbool_t p, svbool_t left, u32 deep)
{
    calls++;
    if (deep == 0 || !svptest_any(left, left))
        return svcntp_b32(svptrue_b32(), p) + 1;
    svbool_t first = svpfirst(left, svpfalse());
    svbool_t rest = svbic_z(left, left, first);
    u64 with = subsets(svorr_z(svptrue_b32(), p, first), rest, deep - 1);
    u64 without = subsets(p, rest, deep - 1);
    return with * 3 + without;
}

static NOINLINE void show(const char *name, svint32_t v)
{
    i32 lanes[64];
    svst1(svptrue_b32(), lanes, v);
    print_hash(name, lanes, svcntb());
}

int main(void)
{
    for (u32 i = 0; i < N; i++)
        numbers[i] = (i32)(next() >> 40) - 8000000;
    svbool_t all = svptrue_b32();
    svint32_t a = svld1(svwhilelt_b32(0, N), numbers);
    svint32_t b = svindex_s32(3, -7);
    svint32_t c = svmul_x(all, a, b);
    print("sum", sum_by_halves(a, all, 6));
    print("straight", svaddv(all, a));
    show("horner", horner(b, 20, all));
    show("even", even(a, b, c, 9));
    show("odd", odd(c, a, b, 8));
    struct rods r = {0, 1};
    hanoi(&r, a, b, 7);
    print("moves", (i64)r.moves);
    put_text("rods ");
    put_hex(r.hash, 16);
    put('\n');
    print("subsets", (i64)(subsets(svpfalse(), all, 9) & 0xFFFFFFFF));
    print("calls", calls);
    flush();
    return (int)(calls & 127);
}
