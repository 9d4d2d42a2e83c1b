/* Preloaded into a program, it refuses one of its allocations: the one whose number, counted from 1, REFUSE has. It
 * then writes a byte to the file descriptor 9, by which its caller knows that there was such an allocation.
 * tests/wanting.sh says how it is built and used. */
#include <errno.h>
#include <stdlib.h>
#include <unistd.h>

void *__libc_malloc(size_t size);
void *__libc_realloc(void *old, size_t size);

static long wanted = -1;
static long made;

static int is_refused(void)
{
    if (wanted < 0) {
        const char *text = getenv("REFUSE");
        wanted = text == NULL ? 0 : atol(text);
    }
    made += 1;
    if (made != wanted)
        return 0;
    if (write(9, "r", 1) != 1)
        _exit(99);
    errno = ENOMEM;
    return 1;
}

void *malloc(size_t size)
{
    return is_refused() ? NULL : __libc_malloc(size);
}

void *realloc(void *old, size_t size)
{
    return is_refused() ? NULL : __libc_realloc(old, size);
}
