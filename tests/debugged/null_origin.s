// A list of two nodes, of which the second has lost its successor: the walk over three reads by a null pointer.
        .globl _start
        .type _start, %function
_start: mov x29, #0
        mov x30, #0
        bl unlink
        bl walk
        mov x8, #93
        svc #0
        .size _start, . - _start

        .type unlink, %function
unlink: adr x1, second
        str xzr, [x1, #8]
        ret
        .size unlink, . - unlink

        .type walk, %function
walk:   adr x1, first
        mov x2, #3
        mov x0, #0
1:      ldr x3, [x1]
        add x0, x0, x3
        ldr x1, [x1, #8]
        subs x2, x2, #1
        b.ne 1b
        ret
        .size walk, . - walk

        .data
        .p2align 3
        .type first, %object
first:  .xword 1, second
        .size first, 16
        .type second, %object
second: .xword 2, third
        .size second, 16
        .type third, %object
third:  .xword 3, 0
        .size third, 16
