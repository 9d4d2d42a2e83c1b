// 10 million steps over 64-bit lanes of registers, with no load and no store: a loop of 16 instructions, 624,999 times.
        .arch   armv8-a+sve
        .globl  _start
        .text
_start: ldr     x2, =624999
        ptrue   p0.d
        index   z0.d, #1, #3
        index   z1.d, #7, #5
        index   z2.d, #-3, #1
        mov     z3.d, #2
        cmphi   p1.d, p0/z, z1.d, z0.d  // some of the lanes
again:  add     z0.d, z0.d, z1.d
        mla     z3.d, p0/m, z1.d, z2.d
        eor     z1.d, z1.d, z3.d
        sub     z2.d, p1/m, z2.d, z0.d
        asr     z4.d, z0.d, #7
        lsl     z5.d, p1/m, z5.d, #1
        umax    z5.d, p0/m, z5.d, z4.d
        abs     z6.d, p0/m, z3.d
        sabd    z3.d, p1/m, z3.d, z6.d
        sel     z7.d, p1, z4.d, z6.d
        lsr     z7.d, p0/m, z7.d, z2.d
        orr     z5.d, z5.d, z7.d
        sub     z1.d, z1.d, #5
        smin    z4.d, p0/m, z4.d, z5.d
        subs    x2, x2, #1
        b.ne    again
        uaddv   d8, p0, z3.d
        uaddv   d9, p0, z4.d
        add     d8, d8, d9
        fmov    x0, d8
        and     x0, x0, #0x7f
        mov     x8, #93
        svc     #0
