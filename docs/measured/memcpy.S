// A megabyte copied byte by byte under whilelo, sixteen times.
        .arch   armv8-a+sve
        .globl  _start
        .text
_start: ldr     x9, =from
        ldr     x10, =to
        mov     x11, #0x100000          // bytes
        ldr     x12, =times
        ldr     x12, [x12]
rows:   mov     x2, #0
        whilelo p0.b, x2, x11
bytes:  ld1b    {z0.b}, p0/z, [x9, x2]
        st1b    {z0.b}, p0, [x10, x2]
        incb    x2
        whilelo p0.b, x2, x11
        b.first bytes
        subs    x12, x12, #1
        b.ne    rows
        mov     x0, #0
        mov     x8, #93
        svc     #0
        .data
times:  .dword  16
        .bss
        .balign 4096
from:   .space  0x100000
to:     .space  0x100000
