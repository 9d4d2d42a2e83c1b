// Adds up words lane by lane, but by a wrong count: there are 64 of them, and not 2,000. The loads go on behind the
// last one, where no page is mapped, and trap.
  .entry start
start:
  adr x1, words
  mov x2, #2000
  mov x3, #0
  dup z0.s, #0
  whilelo p0.s, x3, x2
turn:
  ld1w {z1.s}, p0/z, [x1, x3, lsl #2]
  add z0.s, p0/m, z0.s, z1.s
  incw x3
  whilelo p0.s, x3, x2
  b.mi turn
  mov x0, #0
  mov x8, #94
  svc #0

  .data
  .zero 3840                  // so that the words end where their page does
words:
  .word 1, 2, 3, 4, 5, 6, 7, 8, 9, 10, 11, 12, 13, 14, 15, 16
  .word 1, 2, 3, 4, 5, 6, 7, 8, 9, 10, 11, 12, 13, 14, 15, 16
  .word 1, 2, 3, 4, 5, 6, 7, 8, 9, 10, 11, 12, 13, 14, 15, 16
  .word 1, 2, 3, 4, 5, 6, 7, 8, 9, 10, 11, 12, 13, 14, 15, 16
