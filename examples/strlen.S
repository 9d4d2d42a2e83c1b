// Measures a string by first-faulting loads.
//
// What to look at: a string's end isn't known before it is read, so a vector load may reach past it, and behind it
// there may be no memory at all. ldff1b traps only where its first active lane can't be read. Where a later lane can't,
// it clears the bits of the first-fault register (FFR) from that lane on, and rdffr tells which lanes hold bytes of
// memory. So the loop reads a vector at a time, and never needs a byte behind the string.
//
// The string stands at the end of a page, its last byte, the 0, at the page's last byte, and the next page isn't
// mapped. At 2048 bits the first load asks for 256 bytes, of which 52 are there; at 128 the fourth asks for 16, of
// which 4 are there. With ld1b in the place of ldff1b the program ends with `trap read` instead.

        .text
        .global strlen
strlen: mov x1, x0
        mov x0, #0                      // how many bytes aren't 0
        ptrue p0.b
1:      setffr                          // all lanes may be read, as far as is known
        ldff1b {z0.b}, p0/z, [x1, x0]
        rdffr p1.b, p0/z                // those that were
        cmpeq p2.b, p1/z, z0.b, #0      // the zeros among them
        brkb p3.b, p1/z, p2.b           // those before the first 0
        incp x0, p3.b
        ptest p0, p2.b
        b.none 1b                       // no 0 yet
        ret

        .global main
main:   mov x19, x30
        mov x0, #0                      // mmap(0, 8192, readable and writable, private and anonymous, -1, 0)
        mov x1, #8192
        mov x2, #3
        mov x3, #0x22
        mov x4, #-1
        mov x5, #0
        mov x8, #222
        svc #0
        add x20, x0, #4096
        mov x0, x20                     // munmap(the second page, 4096)
        mov x1, #4096
        mov x8, #215
        svc #0
        cbnz x0, 2f
        sub x20, x20, #text_end - text
        mov x0, x20
        adr x1, text
        mov x2, #text_end - text
        bl memcpy
        mov x0, x20
        bl strlen
        mov x21, x0
        mov x0, #1                      // write(1, the string, its length)
        mov x1, x20
        mov x2, x21
        mov x8, #64
        svc #0
        cmp x0, #text_end - text - 1    // 0 where that was all of it, else 1
        cset w0, ne
        ret x19
2:      mov w0, #2                      // there is no such memory
        ret x19

text:   .asciz "this line stands at the very end of mapped memory.\n"
text_end:
