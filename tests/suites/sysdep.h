// What the assembler sources of a C library's string functions include: how a function begins and ends. The names and
// the numbers of these macros are those that the sources use.

#define ENTRY(name) ENTRY_ALIGN(name, 6)
#define ENTRY_ALIGN(name, log2) .text; .global name; .type name, %function; .p2align log2; name:
#define ENTRY_ALIGN_AND_PAD(name, log2, padding) .text; .global name; .type name, %function; .p2align log2; \
    .rep padding; nop; .endr; name:
#define END(name) .size name, . - name
#define L(label) .L##label

// Addresses and sizes have 64 bits.
#define PTR_ARG(number)
#define SIZE_ARG(number)
#define PTR_REG(number) x##number
#define DELOUSE(number)

#define IS_IN(library) 1
#define HAVE_AARCH64_SVE_ASM 1
#define weak_alias(name, other) .weak other; .set other, name
#define strong_alias(name, other) .global other; .set other, name
#define libc_hidden_def(name)
#define libc_hidden_builtin_def(name)
#define cfi_startproc
#define cfi_endproc
#define cfi_return_column(register)
