/* What a program of the Rattle kit asks of C beside the C library: its arguments and variables, errno and the heap. The kit has it as
   machine code for x86-64; this is the same for another host, where tools/release links it. */
#include <errno.h>
#include <stdint.h>
#include <stdlib.h>

extern char **environ;

static int count;
static char **words;

__attribute__((constructor)) static void keep(int argc, char **argv)
{
    count = argc;
    words = argv;
}

/* Copies a text without its byte 0: its length, -2 where there is no room for it, -1 where there is no text. */
static intptr_t copy(const char *text, char *into, uintptr_t room)
{
    uintptr_t length;

    if (!text)
        return -1;
    for (length = 0; text[length]; length++) {
        if (length == room)
            return -2;
        into[length] = text[length];
    }
    return (intptr_t)length;
}

/* Copies an argument. */
intptr_t rattle_arg(uintptr_t number, char *into, uintptr_t room)
{
    return copy(number < (uintptr_t)count ? words[number] : 0, into, room);
}

/* Copies the value of a variable. */
intptr_t rattle_env(const char *name, char *into, uintptr_t room)
{
    return copy(getenv(name), into, room);
}

/* Copies a variable with its name, by its place. */
intptr_t rattle_env_at(uintptr_t number, char *into, uintptr_t room)
{
    uintptr_t k;

    for (k = 0; environ && environ[k]; k++)
        if (k == number)
            return copy(environ[k], into, room);
    return -1;
}

int rattle_errno(void)
{
    return errno;
}

void rattle_set_errno(int number)
{
    errno = number;
}

/* Whether there was memory, and where; an address that is nobody's where there was none. */
struct place {
    uint64_t some;
    void *at;
};

static char nowhere;

static struct place place_of(void *at)
{
    return (struct place){ at != 0, at ? at : &nowhere };
}

/* For no bytes, as many as the other number says. */
struct place rattle_alloc(uintptr_t size, uintptr_t other)
{
    return place_of(malloc(size ? size : other));
}

struct place rattle_realloc(void *old, uintptr_t before, uintptr_t size, uintptr_t other)
{
    (void)before;
    return place_of(realloc(old, size ? size : other));
}

void rattle_dealloc(void *at)
{
    free(at);
}
