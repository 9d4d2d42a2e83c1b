// 10 million steps over integers: a loop of 14 instructions, 714,283 times.
        .globl  _start
        .text
_start: ldr     x9, =table
        mov     x0, #0
        mov     x1, #1
        ldr     x2, =714283
        ldr     x3, =0x5851f42d4c957f2d
again:  madd    x1, x1, x3, x2          // the next number of a sequence
        lsr     x4, x1, #56             // one of 256 places
        ldr     x5, [x9, x4, lsl #3]
        add     x5, x5, x1, lsr #33
        str     x5, [x9, x4, lsl #3]
        eor     x0, x0, x5
        and     x6, x5, #0xff
        cmp     x6, #128
        csel    x7, x6, x4, lo
        add     x0, x0, x7
        ror     x0, x0, #7
        ubfx    x8, x0, #3, #9
        subs    x2, x2, #1
        b.ne    again
        and     x0, x0, #0x7f
        mov     x8, #93
        svc     #0
        .data
        .balign 4096
table:  .space  2048, 1
