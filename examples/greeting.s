// Writes a line that stands in two pieces, by one call of writev.
//
// The table that the call takes is laid out by directives: `.quad` has the address of a label in one place and a number
// in the next, and `.align` puts it at a multiple of 8. Strings need no length of their own; the table says it.
  mov x0, #1
  adr x1, pieces
  mov x2, #2
  mov x8, #66
  svc #0
  mov x0, #0
  mov x8, #94
  svc #0

  .data
first:
  .ascii "hello, "
second:
  .ascii "lanes\n"
  .align 8
pieces:
  .quad first, 7
  .quad second, 6
