// Counts down from an odd number by two until it comes to 0: it never does.
        .globl _start
        .type _start, %function
_start: mov x0, #7
        mov x1, #0
1:      sub x0, x0, #2
        add x1, x1, #1
        cbnz x0, 1b
        mov x8, #93
        svc #0
        .size _start, . - _start

        .data
        .word 0
