// Adds up pairs of 64 words. The last but one of the words of "left" is overwritten before the sums are made, so that
// one sum is wrong: the lane of the sums that holds it leads to the store.
        .globl _start
        .type _start, %function
_start: mov x29, #0
        mov x30, #0
        bl fill
        bl spoil
        bl sums
        mov x0, #0
        mov x8, #93
        svc #0
        .size _start, . - _start

        .type fill, %function
fill:   stp x29, x30, [sp, #-16]!
        mov x29, sp
        adr x1, left
        adr x2, right
        mov x3, #0
        mov x4, #64
        whilelo p0.s, x3, x4
1:      index z0.s, w3, #1
        st1w {z0.s}, p0, [x1, x3, lsl #2]
        st1w {z0.s}, p0, [x2, x3, lsl #2]
        incw x3
        whilelo p0.s, x3, x4
        b.mi 1b
        ldp x29, x30, [sp], #16
        ret
        .size fill, . - fill

        .type spoil, %function
spoil:  adr x1, left
        mov w2, #1000
        str w2, [x1, #248]
        ret
        .size spoil, . - spoil

        .type sums, %function
sums:   stp x29, x30, [sp, #-16]!
        mov x29, sp
        adr x1, left
        adr x2, right
        adr x5, total
        mov x3, #0
        mov x4, #64
        whilelo p0.s, x3, x4
1:      ld1w {z0.s}, p0/z, [x1, x3, lsl #2]
        ld1w {z1.s}, p0/z, [x2, x3, lsl #2]
        add z2.s, z0.s, z1.s
add_up: st1w {z2.s}, p0, [x5, x3, lsl #2]
        incw x3
        whilelo p0.s, x3, x4
        b.mi 1b
        ldp x29, x30, [sp], #16
done:   ret
        .size sums, . - sums

        .data
        .p2align 4
        .type left, %object
left:   .zero 256
        .size left, 256
        .type right, %object
right:  .zero 256
        .size right, 256
        .type total, %object
total:  .zero 256
        .size total, 256
