// 10 million steps over vectors: sums of products of 4,096 bytes of words, over and over.
        .arch   armv8-a+sve
        .globl  _start
        .text
_start: ldr     x9, =first
        ldr     x10, =second
        mov     x11, #1024              // words
        ldr     x12, =22124              // 10 million steps at 512 bits
        mov     z3.s, #3
rows:   mov     x2, #0
        whilelo p0.s, x2, x11
lanes:  ld1w    {z0.s}, p0/z, [x9, x2, lsl #2]
        ld1w    {z1.s}, p0/z, [x10, x2, lsl #2]
        mla     z1.s, p0/m, z0.s, z3.s
        st1w    {z1.s}, p0, [x10, x2, lsl #2]
        incw    x2
        whilelo p0.s, x2, x11
        b.first lanes
        subs    x12, x12, #1
        b.ne    rows
        mov     x0, #0
        mov     x8, #93
        svc     #0
        .data
        .balign 4096
first:  .space  4096, 1
second: .space  4096, 2
