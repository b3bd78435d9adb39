/* Preloaded into Python by refused.py: refuses the request for memory that comes after `count` others of the module of
 * slotmap_proved, and counts what it refused. It needs glibc, which has these two names. */
#define _GNU_SOURCE
#include <dlfcn.h>
#include <stdbool.h>
#include <stddef.h>
#include <string.h>

void *__libc_malloc(size_t size);
void *__libc_realloc(void *old, size_t size);

static long left = -1;
static long refusals;

void refuse_after(long count);
long refused(void);

void refuse_after(long count) { left = count; }
long refused(void) { return refusals; }

static bool is_refused(void *caller)
{
    Dl_info from;
    if (left < 0 || dladdr(caller, &from) == 0 || strstr(from.dli_fname, "_tables") == NULL || left-- > 0)
        return false;
    refusals++;
    return true;
}

void *malloc(size_t size) { return is_refused(__builtin_return_address(0)) ? NULL : __libc_malloc(size); }
void *realloc(void *old, size_t size) { return is_refused(__builtin_return_address(0)) ? NULL : __libc_realloc(old, size); }
