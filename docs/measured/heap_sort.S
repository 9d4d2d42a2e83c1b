// 10 million steps of heap sorts: 4,096 words of a sequence, 12 times.
        .globl  _start
        .text
_start: adrp    x19, words
        add     x19, x19, :lo12:words
        ldr     x20, =0x5851f42d4c957f2d
        mov     x21, #1
        mov     x22, #12                // sorts
        mov     x23, #0
sort:   mov     x1, #0
fill:   madd    x21, x21, x20, x22      // the next number of a sequence
        lsr     x2, x21, #32
        str     w2, [x19, x1, lsl #2]
        add     x1, x1, #1
        cmp     x1, #4096
        b.ne    fill
        mov     x24, #2048
build:  sub     x24, x24, #1            // a heap, from its last parent on
        mov     x0, x24
        mov     x1, #4096
        bl      sift
        cbnz    x24, build
        mov     x24, #4096
take:   sub     x24, x24, #1            // the greatest goes behind the others
        ldr     w2, [x19]
        ldr     w3, [x19, x24, lsl #2]
        str     w3, [x19]
        str     w2, [x19, x24, lsl #2]
        mov     x0, #0
        mov     x1, x24
        bl      sift
        cmp     x24, #1
        b.ne    take
        ldr     w2, [x19, #4092]
        eor     x23, x23, x2
        subs    x22, x22, #1
        b.ne    sort
        and     x0, x23, #0x7f
        mov     x8, #93
        svc     #0
// Lets word x0 of the first x1 sink below its greater child.
sift:   stp     x29, x30, [sp, #-16]!
        ldr     w4, [x19, x0, lsl #2]
down:   lsl     x5, x0, #1
        add     x5, x5, #1
        cmp     x5, x1
        b.hs    done
        add     x6, x5, #1
        ldr     w7, [x19, x5, lsl #2]
        cmp     x6, x1
        b.hs    one
        ldr     w8, [x19, x6, lsl #2]
        cmp     w8, w7
        csel    x5, x6, x5, hi
        csel    w7, w8, w7, hi
one:    cmp     w7, w4
        b.ls    done
        str     w7, [x19, x0, lsl #2]
        mov     x0, x5
        b       down
done:   str     w4, [x19, x0, lsl #2]
        ldp     x29, x30, [sp], #16
        ret
        .data
        .balign 4096
words:  .space  16384
