// 10 million steps over 32-bit lanes of registers, with no load and no store: a loop of 16 instructions, 624,999 times.
        .arch   armv8-a+sve
        .globl  _start
        .text
_start: ldr     x2, =624999
        ptrue   p0.s
        index   z0.s, #1, #3
        index   z1.s, #7, #5
        index   z2.s, #-3, #1
        mov     z3.s, #2
        cmphi   p1.s, p0/z, z1.s, z0.s  // some of the lanes
again:  mla     z0.s, p0/m, z1.s, z2.s
        mul     z3.s, p0/m, z3.s, z1.s
        add     z1.s, z1.s, z0.s
        eor     z2.d, z2.d, z1.d
        asr     z4.s, z0.s, #5
        sub     z5.s, p1/m, z5.s, z4.s
        smax    z5.s, p0/m, z5.s, z3.s
        lsr     z6.s, p1/m, z6.s, z4.s
        and     z6.d, z6.d, z2.d
        sel     z7.s, p1, z5.s, z6.s
        neg     z8.s, p0/m, z7.s
        mls     z3.s, p1/m, z8.s, z2.s
        umin    z4.s, p0/m, z4.s, z6.s
        add     z2.s, z2.s, #5
        subs    x2, x2, #1
        b.ne    again
        uaddv   d8, p0, z3.s
        uaddv   d9, p0, z4.s
        add     d8, d8, d9
        fmov    x0, d8
        and     x0, x0, #0x7f
        mov     x8, #93
        svc     #0
