/* Two PT_LOAD segments and no other program header: instructions alone, with nop between the parts, then constants,
   data and the stack. */
ENTRY(_start)

PHDRS
{
    text PT_LOAD FLAGS(5);
    data PT_LOAD FLAGS(6);
}

SECTIONS
{
    . = 0x400000;
    .text : { *(.text .text.*) } :text =0x1f2003d5
    . = ALIGN(4096);
    .data : { *(.rodata .rodata.*) *(.data .data.*) } :data
    .bss : { *(.bss .bss.*) *(COMMON) } :data
    /DISCARD/ : { *(.note .note.* .comment .eh_frame) }
}
