/* Loads and stores at addresses that are in registers: a sparse matrix, permutations, a table that is looked up, a
   linked list that many lanes follow, a histogram whose lanes don't meet, gathers from bases and from narrow lanes. */
#include "guest.h"
#include <arm_sve.h>

enum { N = 203, ROWS = 41 };

static u32 order[N], values[N], permuted[N], back[N];
static i32 entries[ROWS * 7], column_of[ROWS * 7], row_from[ROWS + 1], vector[N], product[ROWS];
static u64 wide[N], wide_order[N], wide_result[N];
static u8 table[256], narrow[N], looked_up[N];
static u32 histogram[256];

struct cell {
    u64 next;
    u64 value;
};

static struct cell cells[N];

static void fill(void)
{
    for (u32 i = 0; i < N; i++) {
        order[i] = i;
        values[i] = (u32)next();
        vector[i] = (i32)(next() & 2047) - 1024;
        wide[i] = next();
        narrow[i] = (u8)(next() >> 40);
        cells[i].value = next() & 0xFFFF;
    }
    for (u32 i = 0; i < 256; i++)
        table[i] = (u8)(i * 167 + 13);
    for (u32 i = N - 1; i > 0; i--) {
        u32 j = (u32)(next() >> 33) % (i + 1), t = order[i];
        order[i] = order[j];
        order[j] = t;
    }
    for (u32 i = 0; i < N; i++) {
        wide_order[i] = order[N - 1 - i];
        cells[order[i]].next = (u64)&cells[order[(i + 1) % N]];
    }
    u32 at = 0;
    for (u32 r = 0; r < ROWS; r++) {
        row_from[r] = (i32)at;
        for (u32 k = 0; k < 1 + next() % 7; k++) {
            entries[at] = (i32)(next() & 255) - 128;
            column_of[at] = (i32)(next() % N);
            at++;
        }
    }
    row_from[ROWS] = (i32)at;
}

static NOINLINE void permute(i32 n)
{
    for (i32 i = 0; i < n; i += (i32)svcntw()) {
        svbool_t p = svwhilelt_b32(i, n);
        svuint32_t from = svld1(p, order + i);
        svst1(p, permuted + i, svld1_gather_index(p, values, from));
    }
}

static NOINLINE void permute_back(i32 n)
{
    for (i32 i = 0; i < n; i += (i32)svcntw()) {
        svbool_t p = svwhilelt_b32(i, n);
        svst1_scatter_index(p, back, svld1(p, order + i), svld1(p, permuted + i));
    }
}

static NOINLINE void permute_wide(i64 n)
{
    for (i64 i = 0; i < n; i += (i64)svcntd()) {
        svbool_t p = svwhilelt_b64(i, n);
        svuint64_t from = svld1(p, wide_order + i);
        svuint64_t v = svld1_gather_index(p, wide, from);
        svuint64_t low = svld1uh_gather_offset_u64(p, (u16 *)wide, svlsl_x(p, from, 3));
        svst1(p, wide_result + i, sveor_x(p, v, low));
    }
}

static NOINLINE void multiply_sparse(void)
{
    for (i32 r = 0; r < ROWS; r++) {
        svint32_t sum = svdup_s32(0);
        for (i32 k = row_from[r]; k < row_from[r + 1]; k += (i32)svcntw()) {
            svbool_t p = svwhilelt_b32(k, row_from[r + 1]);
            svint32_t column = svld1(p, column_of + k);
            sum = svmla_m(p, sum, svld1(p, entries + k), svld1_gather_index(p, vector, column));
        }
        product[r] = (i32)svaddv(svptrue_b32(), sum);
    }
}

static NOINLINE void look_up(i32 n)
{
    for (i32 i = 0; i < n; i += (i32)svcntw()) {
        svbool_t p = svwhilelt_b32(i, n);
        svuint32_t at = svld1ub_u32(p, narrow + i);
        svst1b(p, looked_up + i, svld1ub_gather_offset_u32(p, table, at));
    }
}

/* each lane follows the list from a cell of its own, and adds what it meets */
static NOINLINE u64 follow(u64 n, u32 steps)
{
    u64 sum = 0;
    for (u64 i = 0; i < n; i += svcntd()) {
        svbool_t p = svwhilelt_b64(i, n);
        svuint64_t at = svadd_x(p, svlsl_x(p, svld1(p, wide_order + i), 4), (u64)cells);
        svuint64_t met = svdup_u64(0);
        for (u32 k = 0; k < steps; k++) {
            met = svadd_m(p, met, svld1_gather_offset_u64(p, at, 8));
            at = svld1_gather_u64(p, at);
        }
        sum += svaddv(p, met);
    }
    return sum;
}

/* a lane waits while an earlier one of the same step counts in the same place: what it reads back isn't its own
   number */
static NOINLINE void count(i32 n)
{
    static u32 owner[256];
    for (i32 i = 0; i < n; i += (i32)svcntw()) {
        svbool_t waiting = svwhilelt_b32(i, n);
        svuint32_t place = svld1ub_u32(waiting, narrow + i);
        svuint32_t lane = svindex_u32(0, 1);
        while (svptest_any(svptrue_b32(), waiting)) {
            svst1_scatter_index(waiting, owner, place, lane);
            svbool_t owns = svcmpeq(waiting, svld1_gather_index(waiting, owner, place), lane);
            svuint32_t so_far = svld1_gather_index(owns, histogram, place);
            svst1_scatter_index(owns, histogram, place, svadd_x(owns, so_far, 1));
            waiting = svbic_z(svptrue_b32(), waiting, owns);
        }
    }
}

static NOINLINE u32 differences(void)
{
    u32 wrong = 0, total = 0;
    for (u32 i = 0; i < N; i++) {
        __asm__ volatile("");
        wrong += permuted[i] != values[order[i]];
        wrong += back[i] != values[i];
        wrong += looked_up[i] != table[narrow[i]];
        wrong += wide_result[i] != (wide[wide_order[i]] ^ (u16)wide[wide_order[i]]);
    }
    for (u32 r = 0; r < ROWS; r++) {
        i32 sum = 0;
        for (i32 k = row_from[r]; k < row_from[r + 1]; k++) {
            __asm__ volatile("");
            sum += entries[k] * vector[column_of[k]];
        }
        wrong += sum != product[r];
    }
    for (u32 i = 0; i < 256; i++)
        total += histogram[i];
    return wrong + (total != N);
}

int main(void)
{
    fill();
    permute(N), print_hash("permuted", permuted, sizeof(permuted));
    permute_back(N), print_hash("back", back, sizeof(back));
    permute_wide(N), print_hash("wide", wide_result, sizeof(wide_result));
    multiply_sparse(), print_hash("product", product, sizeof(product));
    look_up(N), print_hash("looked_up", looked_up, sizeof(looked_up));
    print("followed", (i64)follow(N, 9));
    count(N), print_hash("histogram", histogram, sizeof(histogram));
    print("differences", differences());
    flush();
    return (int)differences();
}
