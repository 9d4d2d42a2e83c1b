// Copies bytes by whilelo.
//
// What to look at: the loop has no tail. whilelo makes a predicate whose lane k is active where x3 + k is below the
// count, so in the last turn the lanes past the end are inactive: they load nothing and store nothing. The loop's end
// is the same instruction: b.first goes on while the first lane is active. Nowhere does the code say how long a vector
// is; incb does.
//
// The 44 bytes of the text go into the middle of a frame of dots, and the frame is written: one byte too many or too
// few would show. Compare the number of steps at 128 and at 2048 bits.

        .text
        .global memcpy
memcpy: mov x3, #0                      // how many bytes are copied
        whilelo p0.b, x3, x2
        b.none 2f                       // a count of 0
1:      ld1b {z0.b}, p0/z, [x1, x3]
        st1b {z0.b}, p0, [x0, x3]
        incb x3                         // a vector's bytes more
        whilelo p0.b, x3, x2
        b.first 1b
2:      ret

        .global main
main:   mov x19, x30
        adr x0, place
        adr x1, text
        mov x2, #text_end - text
        bl memcpy
        mov x0, #1                      // write(1, frame, frame_end - frame)
        adr x1, frame
        mov x2, #frame_end - frame
        mov x8, #64
        svc #0
        cmp x0, #frame_end - frame      // 0 where all of it was written, else 1
        cset w0, ne
        ret x19

text:   .ascii "a copy has no tail: the predicate is shorter"
text_end:

        .data
frame:  .ascii "........"
place:  .fill text_end - text, 1, '.'
        .ascii "........\n"
frame_end:
