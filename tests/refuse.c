/* A `malloc` that refuses some requests, put in front of the C library's by LD_PRELOAD.
 *
 * Requests for memory are counted from 1 on. The environment says which are refused:
 *
 *   REFUSE_AT=N      request N alone
 *   REFUSE_FROM=N    request N and all after it
 *   REFUSE_COUNT=1   none; at the end their number, and the size of the largest in bytes, are written to standard error
 *
 * Build it with: cc -O2 -shared -fPIC -o refuse.so refuse.c
 */
#include <errno.h>
#include <stddef.h>
#include <stdio.h>
#include <stdlib.h>
#include <unistd.h>

/* The C library's own. */
extern void *__libc_malloc(size_t size);
extern void *__libc_calloc(size_t count, size_t size);
extern void *__libc_realloc(void *block, size_t size);
extern void *__libc_memalign(size_t alignment, size_t size);

static long requests;
static size_t largest;
static long refused_alone;
static long refused_from;

static long number_of(const char *name)
{
    const char *text = getenv(name);
    return text == NULL ? 0 : atol(text);
}

/* Counts a request, and says whether it is refused. */
static int is_refused(size_t size)
{
    if (size > largest)
        largest = size;
    if (requests == 0) {
        refused_alone = number_of("REFUSE_AT");
        refused_from = number_of("REFUSE_FROM");
    }
    requests++;
    if (requests == refused_alone || (refused_from > 0 && requests >= refused_from)) {
        errno = ENOMEM;
        return 1;
    }
    return 0;
}

void *malloc(size_t size)
{
    return is_refused(size) ? NULL : __libc_malloc(size);
}

void *calloc(size_t count, size_t size)
{
    return is_refused(count * size) ? NULL : __libc_calloc(count, size);
}

void *realloc(void *block, size_t size)
{
    return is_refused(size) ? NULL : __libc_realloc(block, size);
}

void *aligned_alloc(size_t alignment, size_t size)
{
    return is_refused(size) ? NULL : __libc_memalign(alignment, size);
}

int posix_memalign(void **block, size_t alignment, size_t size)
{
    void *made = is_refused(size) ? NULL : __libc_memalign(alignment, size);
    if (made == NULL)
        return ENOMEM;
    *block = made;
    return 0;
}

static void __attribute__((destructor)) tell(void)
{
    char line[64];
    int length;

    if (getenv("REFUSE_COUNT") == NULL)
        return;
    length = snprintf(line, sizeof line, "requests %ld largest %zu\n", requests, largest);
    if (write(STDERR_FILENO, line, (size_t)length) != length)
        _exit(4);
}
