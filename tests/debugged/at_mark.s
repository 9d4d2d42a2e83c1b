// Stores a counter again and again: the machine behind one of the stores is one that the debugger has a mark of.
        .globl _start
        .type _start, %function
_start: adr x1, word
        mov x0, #0
        mov x2, #1100
1:      str x0, [x1]
        add x0, x0, #1
        cmp x0, x2
        b.ne 1b
        mov x0, #0
        mov x8, #93
        svc #0
        .size _start, . - _start
        .data
        .p2align 4
        .type word, %object
word:   .quad 0
        .size word, 8
