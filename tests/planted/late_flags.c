// Planted: `whilelo` sets the flags, an `adds` behind it sets them again, and the branch goes by these.
#include "kernel_test.h"

void late_flags(unsigned char *out, const unsigned char *a, unsigned long n);

__asm__(".arch armv8-a+sve\n"
        ".text\n"
        ".type late_flags, %function\n"
        "late_flags: mov x3, #0\n"
        "    whilelo p0.b, x3, x2\n"
        "    b.none 2f\n"
        "1:  ld1b {z0.b}, p0/z, [x1, x3]\n"
        "    st1b {z0.b}, p0, [x0, x3]\n"
        "    incb x3\n"
        "    whilelo p0.b, x3, x2\n"
        "    adds x4, x3, #1\n"
        "    b.first 1b\n"
        "2:  ret\n"
        ".size late_flags, . - late_flags\n");

static void reference(unsigned char *out, const unsigned char *a, unsigned long n)
{
    for (unsigned long i = 0; i < n; i++)
        out[i] = a[i];
}

int main(void)
{
    return TEST_MAP(late_flags, reference, unsigned char, unsigned char);
}
