/* What the programs share: types, system calls, printing, and numbers that look random. */

typedef unsigned char u8;
typedef unsigned short u16;
typedef unsigned int u32;
typedef unsigned long u64;
typedef signed char i8;
typedef short i16;
typedef int i32;
typedef long i64;

#define NOINLINE __attribute__((noinline))
#define COUNT(a) (sizeof(a) / sizeof((a)[0]))

enum {
    SYS_IOCTL = 29, SYS_READ = 63, SYS_WRITE = 64, SYS_READV = 65, SYS_WRITEV = 66, SYS_GETPID = 172,
    SYS_BRK = 214, SYS_MUNMAP = 215, SYS_MMAP = 222, SYS_MPROTECT = 226
};

/* Makes the system call of this number. No register but its answer is looked at afterwards. */
i64 system_call(i64 number, i64 a, i64 b, i64 c, i64 d);

void *memcpy(void *to, const void *from, u64 count);
void *memset(void *to, int value, u64 count);

/* Text is gathered, and written when there is much of it. */
void put(char c);
void put_text(const char *text);
void put_number(i64 n);
void put_hex(u64 n, u32 digits);
void flush(void);

/* A line: a word and a number, or a word and a hash of bytes (FNV-1a). */
void print(const char *name, i64 n);
void print_hash(const char *name, const void *bytes, u64 count);

u64 hash_of(const void *bytes, u64 count);

/* The next of a sequence of numbers that look random. */
u64 next(void);
