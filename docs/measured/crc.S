// 10 million steps of a CRC-32 by a table of 256 words: 4,096 bytes, 305 times.
        .globl  _start
        .text
_start: adrp    x9, table
        add     x9, x9, :lo12:table
        ldr     w3, =0xedb88320         // the polynomial, lowest bit first
        mov     x1, #0
byte:   mov     w4, w1                  // the CRC of each byte
        mov     x2, #8
bit:    and     w5, w4, #1
        neg     w5, w5
        and     w5, w5, w3
        eor     w4, w5, w4, lsr #1
        subs    x2, x2, #1
        b.ne    bit
        str     w4, [x9, x1, lsl #2]
        add     x1, x1, #1
        cmp     x1, #256
        b.ne    byte
        mov     w0, #-1
        mov     x11, #305
again:  adrp    x6, message
        add     x6, x6, :lo12:message
        mov     x7, #4096
next:   ldrb    w8, [x6], #1
        eor     w8, w8, w0
        and     x8, x8, #0xff
        ldr     w8, [x9, x8, lsl #2]
        eor     w0, w8, w0, lsr #8
        strb    w0, [x6, #-1]           // the message changes
        subs    x7, x7, #1
        b.ne    next
        subs    x11, x11, #1
        b.ne    again
        mvn     w0, w0
        and     x0, x0, #0x7f
        mov     x8, #93
        svc     #0
        .data
        .balign 4096
message: .space 4096, 1
table:  .space  1024
