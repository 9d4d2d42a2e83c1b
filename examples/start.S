// The start of a freestanding program: calls main(argc, argv) and exits with what it returns. No library stands behind
// it. The four functions below it are those that compilers call without being asked; the linker drops the ones that
// nobody calls, and a program may define its own.

        .arch armv8-a+sve               // also where the compiler isn't told of SVE

        .section .text._start, "ax"
        .global _start
_start: ldr x0, [sp]                    // the stack begins with the number of arguments
        add x1, sp, #8                  // and their addresses
        bl main
        mov x8, #93                     // exit
        svc #0

// memcpy(to, from, count) answers to.
        .section .text.memcpy, "ax"
        .weak memcpy
memcpy: mov x3, #0
        b 2f
1:      ld1b {z0.b}, p0/z, [x1, x3]
        st1b {z0.b}, p0, [x0, x3]
        incb x3
2:      whilelo p0.b, x3, x2
        b.first 1b
        ret

// memmove(to, from, count) answers to. Where copying upwards would overwrite what is still to be read, it copies
// downwards.
        .section .text.memmove, "ax"
        .weak memmove
memmove:
        sub x3, x0, x1
        cmp x3, x2
        b.hs memcpy
        cntb x4
1:      mov x3, x2
        subs x2, x2, x4
        csel x2, xzr, x2, lo
        whilelo p0.b, x2, x3
        ld1b {z0.b}, p0/z, [x1, x2]
        st1b {z0.b}, p0, [x0, x2]
        cbnz x2, 1b
        ret

// memset(to, byte, count) answers to.
        .section .text.memset, "ax"
        .weak memset
memset: mov z0.b, w1
        mov x3, #0
        b 2f
1:      st1b {z0.b}, p0, [x0, x3]
        incb x3
2:      whilelo p0.b, x3, x2
        b.first 1b
        ret

// memcmp(a, b, count) answers the difference of the first two bytes that differ, else 0.
        .section .text.memcmp, "ax"
        .weak memcmp
memcmp: mov x3, x0
        mov w0, #0
1:      cbz x2, 2f
        ldrb w4, [x3], #1
        ldrb w5, [x1], #1
        sub x2, x2, #1
        subs w0, w4, w5
        b.eq 1b
2:      ret

// A segment that is zeros alone stands past the end of the file where GNU ld makes it, and svemu refuses such a file
// (SegmentOutside). With these bytes there is always something else in it.
        .section .data.start, "awR"
        .balign 8
        .quad 1
