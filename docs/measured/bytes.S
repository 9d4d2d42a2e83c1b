// 10 million steps over 8-bit lanes of registers, with no load and no store: a loop of 16 instructions, 624,999 times.
        .arch   armv8-a+sve
        .globl  _start
        .text
_start: ldr     x2, =624999
        ptrue   p0.b
        index   z0.b, #1, #3
        index   z1.b, #7, #5
        index   z2.b, #-3, #1
        mov     z3.b, #2
        cmphi   p1.b, p0/z, z1.b, z0.b  // some of the lanes
again:  add     z0.b, z0.b, z1.b
        eor     z1.d, z1.d, z0.d
        sub     z2.b, p0/m, z2.b, z0.b
        umax    z3.b, p1/m, z3.b, z2.b
        lsr     z4.b, z0.b, #5
        lsl     z5.b, p1/m, z5.b, #1
        smin    z5.b, p0/m, z5.b, z4.b
        abs     z6.b, p0/m, z2.b
        uabd    z3.b, p1/m, z3.b, z6.b
        sel     z7.b, p1, z4.b, z6.b
        lsr     z7.b, p0/m, z7.b, z4.b
        add     z5.b, z5.b, z7.b
        add     z1.b, z1.b, #5
        uaddv   d8, p1, z5.b
        subs    x2, x2, #1
        b.ne    again
        uaddv   d9, p0, z3.b
        add     d8, d8, d9
        fmov    x0, d8
        and     x0, x0, #0x7f
        mov     x8, #93
        svc     #0
