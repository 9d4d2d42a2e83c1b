/* What the parts of the program share: the types, the calls, the printing, and a function for each part. */

typedef unsigned char u8;
typedef unsigned short u16;
typedef unsigned int u32;
typedef unsigned long u64;
typedef unsigned __int128 u128;
typedef signed char i8;
typedef short i16;
typedef int i32;
typedef long i64;
typedef __int128 i128;

#define NOINLINE __attribute__((noinline))
#define COUNT(a) (sizeof(a) / sizeof((a)[0]))

enum { SYS_WRITE = 64, SYS_EXIT = 93, SYS_NONE = 9999 };

/* Makes the system call of this number, and gives its answer. */
i64 call3(u64 number, u64 a, u64 b, u64 c);

void *memcpy(void *to, const void *from, u64 count);
void *memset(void *to, int value, u64 count);

/* Writes what was printed and isn't written yet. */
void flush(void);
void put(char c);
void put_signed(i64 n);
void put_decimal(u64 n);
void put_hex(u64 n, u32 digits);

/* A word and a blank. */
void name(const char *text);

/* A line: a word, a blank and the number. */
void print_decimal(const char *text, u64 n);
void print_signed(const char *text, i64 n);
void print_hex(const char *text, u64 n);

/* FNV-1a of all that was printed. */
extern u64 printed_hash;

/* The next of a sequence of numbers that look random. */
u64 next(void);

/* Its argument, hidden from the compiler, so that what is made of it is computed when the program runs. */
u64 hidden(u64 n);

/* A text to hash, and numbers at the edges. */
extern const char text[];
extern const i64 operands[12];

void sorting(void);
void hashing(void);
void recursion(void);
void bit_tricks(void);
void arithmetic(void);
void sizes(void);
void machine(void);
void shared(void);
void tables(void);
void system_registers(void);
