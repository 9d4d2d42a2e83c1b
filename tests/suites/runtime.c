// What tests of others need of a C library, and no more: an end, some text, memory, and strings. It stands on start.S and
// guest.h of the examples. abort() ends with 134, as a signal would.

#include "guest.h"
#include <stdarg.h>
#include <stddef.h>

void *memcpy(void *to, const void *from, size_t count);
void *memset(void *to, int byte, size_t count);

__attribute__((noreturn)) void _exit(int status)
{
    for (;;)
        system_call(94, status, 0, 0);
}

__attribute__((noreturn)) void exit(int status)
{
    _exit(status);
}

__attribute__((noreturn)) void abort(void)
{
    _exit(134);
}

void (*signal(int number, void (*handler)(int)))(int)
{
    (void)number;
    (void)handler;
    return NULL;
}

size_t strlen(const char *text)
{
    return text_length(text);
}

size_t strnlen(const char *text, size_t most)
{
    size_t length = 0;

    while (length < most && text[length] != 0)
        length++;
    return length;
}

char *strcpy(char *to, const char *from)
{
    memcpy(to, from, text_length(from) + 1);
    return to;
}

char *stpcpy(char *to, const char *from)
{
    return strcpy(to, from) + text_length(from);
}

char *strcat(char *to, const char *from)
{
    strcpy(to + text_length(to), from);
    return to;
}

char *strncpy(char *to, const char *from, size_t count)
{
    size_t length = strnlen(from, count);

    memcpy(to, from, length);
    memset(to + length, 0, count - length);
    return to;
}

int strncmp(const char *a, const char *b, size_t count)
{
    for (; count > 0; count--, a++, b++)
        if (*a != *b || *a == 0)
            return *(const unsigned char *)a - *(const unsigned char *)b;
    return 0;
}

int strcmp(const char *a, const char *b)
{
    return strncmp(a, b, (size_t)-1);
}

void *memchr(const void *bytes, int byte, size_t count)
{
    const unsigned char *place = bytes;

    for (; count > 0; count--, place++)
        if (*place == (unsigned char)byte)
            return (void *)place;
    return NULL;
}

char *strchr(const char *text, int byte)
{
    return memchr(text, byte, text_length(text) + 1);
}

char *strrchr(const char *text, int byte)
{
    for (size_t length = text_length(text) + 1; length > 0; length--)
        if (text[length - 1] == (char)byte)
            return (char *)text + length - 1;
    return NULL;
}

int abs(int number)
{
    return number < 0 ? -number : number;
}

long labs(long number)
{
    return number < 0 ? -number : number;
}

// The same numbers in each run.
int rand(void)
{
    static unsigned long seed = 1;

    seed = seed * 6364136223846793005ul + 1442695040888963407ul;
    return (int)(seed >> 33);
}

// Memory that is never given back.
static char heap[1 << 22] __attribute__((aligned(64)));
static size_t taken;

void *malloc(size_t count)
{
    size_t all = (count + 16 + 63) & ~(size_t)63;

    if (count > sizeof heap || all > sizeof heap - taken)
        return NULL;
    *(size_t *)(heap + taken + 48) = count;
    taken += all + 64;
    return heap + taken - all;
}

void free(void *bytes)
{
    (void)bytes;
}

void *calloc(size_t count, size_t size)
{
    void *bytes = malloc(count * size);

    return bytes == NULL ? NULL : memset(bytes, 0, count * size);
}

void *realloc(void *bytes, size_t count)
{
    void *to = malloc(count);
    size_t before = bytes == NULL ? 0 : ((size_t *)bytes)[-2];

    return to == NULL || bytes == NULL ? to : memcpy(to, bytes, before < count ? before : count);
}

// Text of printf, to a buffer or to standard output.
struct out {
    char *to;
    size_t room, count;
};

static void put(struct out *out, char byte)
{
    if (out->to == NULL)
        write_bytes(1, &byte, 1);
    else if (out->count + 1 < out->room)
        out->to[out->count] = byte;
    out->count++;
}

static void put_digits(struct out *out, unsigned long number, unsigned base, const char *digits, char sign, int width, int least, char fill)
{
    char text[72];
    int length = 0;

    do {
        text[length++] = digits[number % base];
        number /= base;
    } while (number != 0);
    while (length < least)
        text[length++] = '0';
    if (sign != 0 && fill == '0') {
        put(out, sign);
        width--;
        sign = 0;
    }
    for (int k = length + (sign != 0); k < width; k++)
        put(out, fill);
    if (sign != 0)
        put(out, sign);
    while (length > 0)
        put(out, text[--length]);
}

static int format(struct out *out, const char *text, va_list values)
{
    for (; *text != 0; text++) {
        int width = 0, least = -1, wide = 0, prefixed = 0, behind = 0;
        char fill = ' ';
        size_t before;

        if (*text != '%') {
            put(out, *text);
            continue;
        }
        for (text++; *text == '0' || *text == '-' || *text == '+' || *text == '#' || *text == ' '; text++)
            switch (*text) {
            case '0':
                fill = '0';
                break;
            case '-':
                behind = 1;
                break;
            case '#':
                prefixed = 1;
            }
        for (; *text >= '0' && *text <= '9'; text++)
            width = width * 10 + *text - '0';
        if (*text == '.')
            for (text++, least = 0; *text >= '0' && *text <= '9'; text++)
                least = least * 10 + *text - '0';
        for (; *text == 'l' || *text == 'z' || *text == 'j' || *text == 't'; text++)
            wide = 1;
        for (; *text == 'h'; text++)
            ;
        // Blanks in front are put with the value, those behind it when it is put.
        before = out->count;
        if (behind) {
            behind = width;
            width = 0;
        }
        switch (*text) {
        case 'd':
        case 'i': {
            long number = wide ? va_arg(values, long) : va_arg(values, int);

            put_digits(out, number < 0 ? -(unsigned long)number : (unsigned long)number, 10, "0123456789", number < 0 ? '-' : 0,
                       width, least, fill);
            break;
        }
        case 'u':
            put_digits(out, wide ? va_arg(values, unsigned long) : va_arg(values, unsigned), 10, "0123456789", 0, width, least, fill);
            break;
        case 'o':
            put_digits(out, wide ? va_arg(values, unsigned long) : va_arg(values, unsigned), 8, "01234567", 0, width, least, fill);
            break;
        case 'x':
        case 'X': {
            unsigned long number = wide ? va_arg(values, unsigned long) : va_arg(values, unsigned);

            if (prefixed && number != 0) {
                put(out, '0');
                put(out, *text);
                width -= 2;
            }
            put_digits(out, number, 16, *text == 'x' ? "0123456789abcdef" : "0123456789ABCDEF", 0, width, least, fill);
            break;
        }
        case 'p':
            put(out, '0');
            put(out, 'x');
            put_digits(out, (unsigned long)va_arg(values, void *), 16, "0123456789abcdef", 0, 0, -1, ' ');
            break;
        case 'c':
            put(out, (char)va_arg(values, int));
            break;
        case 's': {
            const char *word = va_arg(values, const char *);
            size_t length = strnlen(word, least < 0 ? (size_t)-1 : (size_t)least);

            for (int k = (int)length; k < width; k++)
                put(out, ' ');
            for (size_t k = 0; k < length; k++)
                put(out, word[k]);
            break;
        }
        case '%':
            put(out, '%');
            break;
        default:
            // Floating point, and what there isn't here.
            abort();
        }
        while ((int)(out->count - before) < behind)
            put(out, ' ');
    }
    return (int)out->count;
}

int printf(const char *text, ...)
{
    struct out out = {NULL, 0, 0};
    va_list values;
    int count;

    va_start(values, text);
    count = format(&out, text, values);
    va_end(values);
    return count;
}

int vprintf(const char *text, va_list values)
{
    struct out out = {NULL, 0, 0};

    return format(&out, text, values);
}

int vsnprintf(char *to, size_t room, const char *text, va_list values)
{
    char none[1];
    struct out out = {room == 0 ? none : to, room == 0 ? 1 : room, 0};
    int count = format(&out, text, values);

    if (room > 0)
        to[out.count < room ? out.count : room - 1] = 0;
    return count;
}

int snprintf(char *to, size_t room, const char *text, ...)
{
    va_list values;
    int count;

    va_start(values, text);
    count = vsnprintf(to, room, text, values);
    va_end(values);
    return count;
}

int sprintf(char *to, const char *text, ...)
{
    va_list values;
    int count;

    va_start(values, text);
    count = vsnprintf(to, 1 << 20, text, values);
    va_end(values);
    return count;
}

int putchar(int byte)
{
    char written = (char)byte;

    write_bytes(1, &written, 1);
    return byte & 255;
}

int puts(const char *text)
{
    put_text(text);
    putchar('\n');
    return 0;
}
