/* Arrays of structures, taken apart and put together by the loads and stores of two, three and four registers: complex
   numbers, pixels of three and four colours, points, a transposed matrix, and a queue of records of different
   widths. */
#include "guest.h"
#include <arm_sve.h>

enum { N = 149 };

static i32 complex_a[2 * N], complex_b[2 * N], complex_r[2 * N];
static u8 pixels[3 * N], grey[N], rgba[4 * N], planes[4][N];
static i16 points[4 * N], moved[4 * N];
static u64 pairs[2 * N], swapped[2 * N];
static u32 matrix[4][64], columns[64][4];
static u16 triples[3 * N], rotated[3 * N];

static void fill(void *to, u64 count)
{
    u8 *b = to;
    for (u64 i = 0; i < count; i++)
        b[i] = (u8)(next() >> 11);
}

/* (a + bi)(c + di), modulo 2^32 */
static NOINLINE void multiply_complex(i32 n)
{
    for (i32 i = 0; i < n; i += (i32)svcntw()) {
        svbool_t p = svwhilelt_b32(i, n);
        svint32x2_t a = svld2(p, complex_a + 2 * i);
        svint32x2_t b = svld2(p, complex_b + 2 * i);
        svint32_t re = svmul_x(p, svget2(a, 0), svget2(b, 0));
        svint32_t im = svmul_x(p, svget2(a, 0), svget2(b, 1));
        re = svmls_x(p, re, svget2(a, 1), svget2(b, 1));
        im = svmla_x(p, im, svget2(a, 1), svget2(b, 0));
        svst2(p, complex_r + 2 * i, svcreate2(re, im));
    }
}

/* the light of red, green and blue, in 256ths */
static NOINLINE void to_grey(i32 n)
{
    for (i32 i = 0; i < n; i += (i32)svcntb()) {
        svbool_t p = svwhilelt_b8(i, n);
        svuint8x3_t c = svld3(p, pixels + 3 * i);
        svuint8_t light = svmulh_x(p, svget3(c, 0), svdup_u8(77));
        light = svadd_x(p, light, svmulh_x(p, svget3(c, 1), svdup_u8(150)));
        light = svadd_x(p, light, svmulh_x(p, svget3(c, 2), svdup_u8(29)));
        svst1(p, grey + i, light);
    }
}

static NOINLINE void to_four(i32 n)
{
    for (i32 i = 0; i < n; i += (i32)svcntb()) {
        svbool_t p = svwhilelt_b8(i, n);
        svuint8x3_t c = svld3(p, pixels + 3 * i);
        svuint8_t alpha = svmax_x(p, svget3(c, 0), svget3(c, 2));
        svst4(p, rgba + 4 * i, svcreate4(svget3(c, 2), svget3(c, 1), svget3(c, 0), alpha));
    }
}

static NOINLINE void to_planes(i32 n)
{
    for (i32 i = 0; i < n; i += (i32)svcntb()) {
        svbool_t p = svwhilelt_b8(i, n);
        svuint8x4_t c = svld4(p, rgba + 4 * i);
        svst1(p, planes[0] + i, svget4(c, 0));
        svst1(p, planes[1] + i, svget4(c, 1));
        svst1(p, planes[2] + i, svget4(c, 2));
        svst1(p, planes[3] + i, svget4(c, 3));
    }
}

/* x, y, z and a weight: moved where the weight is positive */
static NOINLINE void move_points(i32 n)
{
    for (i32 i = 0; i < n; i += (i32)svcnth()) {
        svbool_t p = svwhilelt_b16(i, n);
        svint16x4_t c = svld4(p, points + 4 * i);
        svbool_t heavy = svcmpgt(p, svget4(c, 3), 0);
        svint16_t x = svadd_m(heavy, svget4(c, 0), 100);
        svint16_t y = svsub_m(heavy, svget4(c, 1), svget4(c, 3));
        svint16_t z = svneg_m(svget4(c, 2), heavy, svget4(c, 2));
        svst4(p, moved + 4 * i, svcreate4(x, y, z, svget4(c, 3)));
    }
}

static NOINLINE void swap_pairs(i64 n)
{
    for (i64 i = 0; i < n; i += (i64)svcntd()) {
        svbool_t p = svwhilelt_b64(i, n);
        svuint64x2_t c = svld2(p, pairs + 2 * i);
        svst2(p, swapped + 2 * i, svcreate2(svget2(c, 1), svget2(c, 0)));
    }
}

static NOINLINE void rotate_triples(i32 n)
{
    for (i32 i = 0; i < n; i += (i32)svcnth()) {
        svbool_t p = svwhilelt_b16(i, n);
        svuint16x3_t c = svld3(p, triples + 3 * i);
        svst3(p, rotated + 3 * i, svcreate3(svget3(c, 1), svget3(c, 2), svget3(c, 0)));
    }
}

static NOINLINE void transpose(void)
{
    for (i32 i = 0; i < 64; i += (i32)svcntw()) {
        svbool_t p = svwhilelt_b32(i, 64);
        svuint32_t a = svld1(p, matrix[0] + i), b = svld1(p, matrix[1] + i);
        svuint32_t c = svld1(p, matrix[2] + i), d = svld1(p, matrix[3] + i);
        svst4(p, columns[i], svcreate4(a, b, c, d));
    }
}

/* the same by loops that no vectors are made of, to compare with */
static NOINLINE u32 differences(i32 n)
{
    u32 wrong = 0;
    for (i32 i = 0; i < n; i++) {
        __asm__ volatile("");
        u32 a = (u32)complex_a[2 * i], b = (u32)complex_a[2 * i + 1];
        u32 c = (u32)complex_b[2 * i], d = (u32)complex_b[2 * i + 1];
        wrong += (u32)complex_r[2 * i] != a * c - b * d;
        wrong += (u32)complex_r[2 * i + 1] != a * d + b * c;
        wrong += rgba[4 * i + 1] != pixels[3 * i + 1];
        wrong += planes[2][i] != pixels[3 * i];
        wrong += swapped[2 * i] != pairs[2 * i + 1];
        wrong += rotated[3 * i + 2] != triples[3 * i];
    }
    for (u32 i = 0; i < 64; i++)
        for (u32 k = 0; k < 4; k++) {
            __asm__ volatile("");
            wrong += columns[i][k] != matrix[k][i];
        }
    return wrong;
}

int main(void)
{
    fill(complex_a, sizeof(complex_a));
    fill(complex_b, sizeof(complex_b));
    fill(pixels, sizeof(pixels));
    fill(points, sizeof(points));
    fill(pairs, sizeof(pairs));
    fill(matrix, sizeof(matrix));
    fill(triples, sizeof(triples));
    multiply_complex(N), print_hash("complex", complex_r, sizeof(complex_r));
    to_grey(N), print_hash("grey", grey, sizeof(grey));
    to_four(N), print_hash("four", rgba, sizeof(rgba));
    to_planes(N), print_hash("planes", planes, sizeof(planes));
    move_points(N), print_hash("moved", moved, sizeof(moved));
    swap_pairs(N), print_hash("swapped", swapped, sizeof(swapped));
    rotate_triples(N), print_hash("rotated", rotated, sizeof(rotated));
    transpose(), print_hash("columns", columns, sizeof(columns));
    print("differences", differences(N));
    flush();
    return (int)differences(N);
}
