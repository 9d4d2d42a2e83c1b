// Clears the sixteen words of an array, and by a wrong count the word behind them, which holds a limit.
        .globl _start
        .type _start, %function
_start: mov x29, #0
        mov x30, #0
        bl clear
        adr x1, limit
        ldr w0, [x1]
        mov x8, #93
        svc #0
        .size _start, . - _start

        .type clear, %function
clear:  adr x1, array
        mov x3, #0
        mov x4, #17
        dup z0.s, #0
        whilelo p0.s, x3, x4
1:      st1w {z0.s}, p0, [x1, x3, lsl #2]
        incw x3
        whilelo p0.s, x3, x4
        b.mi 1b
        ret
        .size clear, . - clear

        .data
        .p2align 4
        .type array, %object
array:  .word 1, 2, 3, 4, 5, 6, 7, 8, 9, 10, 11, 12, 13, 14, 15, 16
        .size array, 64
        .type limit, %object
limit:  .word 42
        .size limit, 4
