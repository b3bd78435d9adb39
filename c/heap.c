/* SPDX-License-Identifier: MIT
 * Copyright (c) 2026 the Sevlurga maintainers
 *
 * The heap of libslotmap_c.a, as C or as C++: the three functions that it calls, over malloc, realloc and free.
 *
 * They do what those of the kit's liblibc_c.a do. Their names are weak: two libraries of this kind may each bring them, and the
 * linker takes one. Write your own if your program has another allocator: one that aligns a block to each power of two up to 16
 * that divides its size. Nothing of this file is proved.
 */
#include <stdbool.h>
#include <stddef.h>
#include <stdlib.h>

#if defined(__GNUC__)
#define HEAP_WEAK __attribute__((weak))
#else
#define HEAP_WEAK
#endif

#ifdef __cplusplus
extern "C" {
#endif

/* A block, or, where memory ran out, the address of a byte that is never read: `at` isn't null where `made` is false either. */
struct block {
    bool made;
    void *at;
};

HEAP_WEAK struct block rattle_alloc(size_t size, size_t align);
HEAP_WEAK struct block rattle_realloc(void *old, size_t kept, size_t size, size_t align);
HEAP_WEAK void rattle_dealloc(void *block);

static struct block block_at(void *at)
{
    static unsigned char unread;
    struct block block;
    block.made = at != NULL;
    block.at = block.made ? at : &unread;
    return block;
}

/* A block of no bytes gets `align` bytes, since malloc may return NULL for none. */
struct block rattle_alloc(size_t size, size_t align)
{
    return block_at(malloc(size != 0 ? size : align));
}

/* Of the old block the first `kept` bytes are in use: they have to stand in the new one too. realloc copies all that fit. */
struct block rattle_realloc(void *old, size_t kept, size_t size, size_t align)
{
    (void)kept;
    return block_at(realloc(old, size != 0 ? size : align));
}

void rattle_dealloc(void *block)
{
    free(block);
}

#ifdef __cplusplus
}
#endif
