// The length of a string of a megabyte by first-faulting loads, sixteen times. Its 0 is the last byte of its page.
        .arch   armv8-a+sve
        .globl  _start
        .text
_start: ldr     x9, =string
        mov     x11, #0x100000          // bytes, the last of which stays 0
        sub     x11, x11, #1
        mov     z1.b, #97
        mov     x2, #0
        whilelo p0.b, x2, x11
fill:   st1b    {z1.b}, p0, [x9, x2]
        incb    x2
        whilelo p0.b, x2, x11
        b.first fill
        ldr     x12, =times
        ldr     x12, [x12]
        ptrue   p0.b
rows:   mov     x2, #0
bytes:  setffr
        ldff1b  {z0.b}, p0/z, [x9, x2]
        rdffr   p1.b, p0/z
        cmpeq   p2.b, p1/z, z0.b, #0
        brkb    p3.b, p1/z, p2.b
        incp    x2, p3.b
        ptest   p0, p2.b
        b.none  bytes
        subs    x12, x12, #1
        b.ne    rows
        cmp     x2, x11
        cset    x0, ne                  // 0 where the length is right
        mov     x8, #93
        svc     #0
        .data
times:  .dword  16
        .bss
        .balign 4096
string: .space  0x100000
