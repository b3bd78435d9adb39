/* All memory of a C++ test, that of the library too. The request that comes after `refuse_after` others is refused, if that isn't
 * negative. It stands in place of heap.c. */
#ifndef REFUSING_H
#define REFUSING_H
#include <cstddef>
#include <cstdlib>
#include <new>

static long refuse_after = -1;
static unsigned refusals;

static bool is_refused()
{
    if (refuse_after < 0 || refuse_after-- > 0)
        return false;
    refusals++;
    return true;
}

/* The operators aren't inlined: gcc warns where one of a pair is. */
static void *allocated(std::size_t size) { return is_refused() ? nullptr : std::malloc(size != 0 ? size : 1); }

__attribute__((noinline)) void *operator new(std::size_t size)
{
    if (void *block = allocated(size))
        return block;
    throw std::bad_alloc();
}
__attribute__((noinline)) void operator delete(void *block) noexcept { std::free(block); }
__attribute__((noinline)) void operator delete(void *block, std::size_t) noexcept { std::free(block); }

extern "C" {
struct block {
    bool made;
    void *at;
};
block rattle_alloc(std::size_t size, std::size_t align);
block rattle_realloc(void *old, std::size_t kept, std::size_t size, std::size_t align);
void rattle_dealloc(void *block);

static block block_at(void *at)
{
    static unsigned char unread;
    return at != nullptr ? block{true, at} : block{false, &unread};
}
block rattle_alloc(std::size_t size, std::size_t align) { return block_at(allocated(size != 0 ? size : align)); }
block rattle_realloc(void *old, std::size_t, std::size_t size, std::size_t)
{
    return block_at(is_refused() ? nullptr : std::realloc(old, size));
}
void rattle_dealloc(void *block) { std::free(block); }
}

#endif
