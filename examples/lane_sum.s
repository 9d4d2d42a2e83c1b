// Adds eleven words, a whole vector of them at a time, and ends with their sum, 44, as its status.
//
// Nothing here says how long a vector is. `whilelo` makes a lane active where a word is left for it, so the last turn
// takes what is there and no more, and `incw` counts on by the lanes that a vector has. Look at the steps: with vectors
// of 128 bits the loop is gone through three times, with 256 bits twice, and from 384 bits on once.
  .entry start
start:
  adr x1, words
  mov x2, #11
  mov x3, #0
  dup z0.s, #0
  whilelo p0.s, x3, x2
turn:
  ld1w {z1.s}, p0/z, [x1, x3, lsl #2]
  add z0.s, p0/m, z0.s, z1.s  // a lane without a word keeps what it has
  incw x3
  whilelo p0.s, x3, x2
  b.mi turn                   // the first lane is active: there is more
  ptrue p1.s
  uaddv d0, p1, z0.s          // the lanes are added only once, behind the loop
  fmov x0, d0
  mov x8, #94
  svc #0

  .data
words:
  .word 3, 1, 4, 1, 5, 9, 2, 6
  .word 5, 3, 5
