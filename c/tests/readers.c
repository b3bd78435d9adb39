/* The calls to which a handle is const write to neither the handle nor what it holds: both stand in pages that can't be written while
 * these calls are made, also where a copy is refused memory. So two threads that read one handle at once are both right. POSIX. */
#define _DEFAULT_SOURCE
#include "check.h"
#include "slotmap.h"

#include <pthread.h>
#include <string.h>
#include <sys/mman.h>

enum { COUNT = 1000, READS = 1000000, COPIES = 100, ROOM = 1 << 20 };

/* The handles, and memory for what they hold, which begins at a multiple of 16. */
static struct handles {
    slotmap_t map;
    slotmap_side_t side;
    slotmap_keys_t live;
    size_t used;
    unsigned char memory[ROOM];
} *all;
static uint64_t keys[COUNT];
static unsigned long wrong[2];
/* Where the pages can't be written, a copy has memory from elsewhere, but for the request that comes after so many others. */
static bool is_protected;
static long refuse_after = -1;

/* In place of those of heap.c. */
struct block {
    bool made;
    void *at;
};
struct block rattle_alloc(size_t size, size_t align);
struct block rattle_realloc(void *old, size_t kept, size_t size, size_t align);
void rattle_dealloc(void *block);

struct block rattle_alloc(size_t size, size_t align)
{
    struct block made = {true, all->memory + all->used};
    (void)align;
    if (is_protected) {
        made.made = refuse_after < 0 || refuse_after-- > 0;
        made.at = made.made ? malloc(size + 1) : (void *)all;
        return made;
    }
    all->used += (size + 15) / 16 * 16;
    CHECK(all->used <= ROOM);
    return made;
}

struct block rattle_realloc(void *old, size_t kept, size_t size, size_t align)
{
    struct block made = rattle_alloc(size, align);
    if (made.made) {
        memcpy(made.at, old, kept < size ? kept : size);
        rattle_dealloc(old);
    }
    return made;
}

void rattle_dealloc(void *block)
{
    if ((unsigned char *)block < all->memory || (unsigned char *)block >= all->memory + ROOM)
        free(block);
}

/* Every call that reads, once. Every tenth key is live. */
static void check_reads(const struct handles *h, size_t live)
{
    uint64_t key = SLOTMAP_START, value = 0, some[8] = {0}, theirs[8] = {0};
    CHECK(slotmap_len(&h->map) == live && slotmap_capacity(&h->map) >= live);
    CHECK(slotmap_contains(&h->map, keys[0]) == (live > 0) && !slotmap_contains(&h->map, keys[1]));
    CHECK((slotmap_get(&h->map, keys[0], &value) == SLOTMAP_OK) == (live > 0) && slotmap_get(&h->map, keys[1], &value) == SLOTMAP_NOT_LIVE);
    for (size_t i = 0; i < live; i++)
        CHECK(slotmap_next(&h->map, key, &key, &value) == SLOTMAP_OK && key == keys[10 * i] && value == 10 * i);
    CHECK(slotmap_next(&h->map, key, &key, &value) == SLOTMAP_NO_MORE);
    CHECK(slotmap_list(&h->map, some, 8, theirs, 8) == (live > 0 ? 8 : 0));
    CHECK(slotmap_list_after(&h->map, keys[10], some, 8, theirs, 8) == (live > 0 ? 8 : 0));
    CHECK(slotmap_keys_len(&h->live) == live && slotmap_keys_capacity(&h->live) >= live);
    CHECK(slotmap_keys_contains(&h->live, keys[0]) == (live > 0));
    key = SLOTMAP_START;
    for (size_t i = 0; i < live; i++)
        CHECK(slotmap_keys_next(&h->live, key, &key) == SLOTMAP_OK && key == keys[10 * i]);
    CHECK(slotmap_keys_next(&h->live, key, &key) == SLOTMAP_NO_MORE);
    CHECK(slotmap_keys_list_after(&h->live, SLOTMAP_START, some, 8) == (live > 0 ? 8 : 0));
    CHECK(slotmap_side_len(&h->side) == live && slotmap_side_capacity(&h->side) >= live);
    CHECK(slotmap_side_contains(&h->side, keys[0]) == (live > 0));
    CHECK((slotmap_side_get(&h->side, keys[0], &value) == SLOTMAP_OK) == (live > 0));
    CHECK(slotmap_side_list(&h->side, some, 8, theirs, 8) == (live > 0 ? 8 : 0));
}

/* Copies of all three, which have what is there. Each that is refused memory leaves its handle closed. */
static unsigned long wrong_copies(const struct handles *h, size_t live)
{
    slotmap_t map = SLOTMAP_INIT;
    slotmap_side_t side = SLOTMAP_INIT;
    slotmap_keys_t keys_alone = SLOTMAP_INIT;
    uint64_t value = 0;
    unsigned long missed = 0;
    bool refused = slotmap_clone(&h->map, &map) != SLOTMAP_OK;
    missed += refused ? map.at != NULL : slotmap_len(&map) != live || slotmap_get(&map, keys[0], &value) != SLOTMAP_OK;
    refused = slotmap_side_clone(&h->side, &side) != SLOTMAP_OK;
    missed += refused ? side.at != NULL : slotmap_side_len(&side) != live || !slotmap_side_contains(&side, keys[0]);
    refused = slotmap_keys_clone(&h->live, &keys_alone) != SLOTMAP_OK;
    missed += refused ? keys_alone.at != NULL : slotmap_keys_len(&keys_alone) != live || !slotmap_keys_contains(&keys_alone, keys[0]);
    slotmap_free(&map);
    slotmap_side_free(&side);
    slotmap_keys_free(&keys_alone);
    return missed;
}

/* With each request for memory refused in turn, until none is. */
static void check_copies(const struct handles *h, size_t live)
{
    long turn = 0;
    do {
        refuse_after = turn++;
        CHECK(wrong_copies(h, live) == 0);
    } while (refuse_after < 0);
    refuse_after = -1;
    CHECK(turn > 9);
}

static void *reads(void *count)
{
    unsigned long missed = 0;
    uint64_t value = 0, next = 0;
    for (unsigned i = 0; i < READS; i++) {
        size_t at = 10 * (i % (COUNT / 10));
        missed += slotmap_get(&all->map, keys[at], &value) != SLOTMAP_OK || value != at;
        missed += !slotmap_keys_contains(&all->live, keys[at]) || slotmap_contains(&all->map, keys[at + 1]);
        missed += slotmap_side_get(&all->side, keys[at], &value) != SLOTMAP_OK || value != at;
        missed += slotmap_next(&all->map, keys[at], &next, &value) != (at + 10 < COUNT ? SLOTMAP_OK : SLOTMAP_NO_MORE);
    }
    for (unsigned i = 0; i < COPIES; i++)
        missed += wrong_copies(all, COUNT / 10);
    *(unsigned long *)count = missed;
    return NULL;
}

static void protect(bool writable)
{
    is_protected = !writable;
    CHECK(mprotect(all, sizeof *all, writable ? PROT_READ | PROT_WRITE : PROT_READ) == 0);
}

int main(void)
{
    pthread_t other;
    uint64_t same = 0;
    all = (struct handles *)mmap(NULL, sizeof *all, PROT_READ | PROT_WRITE, MAP_PRIVATE | MAP_ANONYMOUS, -1, 0);
    CHECK(all != MAP_FAILED);
    protect(false);
    check_reads(all, 0);
    protect(true);
    CHECK(slotmap_new(&all->map) == SLOTMAP_OK && slotmap_keys_open(&all->live) == SLOTMAP_OK && slotmap_side_new(&all->side) == SLOTMAP_OK);
    for (unsigned i = 0; i < COUNT; i++)
        CHECK(slotmap_insert(&all->map, i, &keys[i]) == SLOTMAP_OK && slotmap_keys_insert(&all->live, &same) == SLOTMAP_OK && same == keys[i]);
    for (unsigned i = 0; i < COUNT; i++)
        if (i % 10 == 0)
            CHECK(slotmap_side_put(&all->side, keys[i], i) == SLOTMAP_OK);
        else
            CHECK(slotmap_delete(&all->map, keys[i]) == SLOTMAP_OK && slotmap_keys_remove(&all->live, keys[i]) == SLOTMAP_OK);
    protect(false);
    check_reads(all, COUNT / 10);
    check_copies(all, COUNT / 10);
    CHECK(pthread_create(&other, NULL, reads, &wrong[1]) == 0);
    reads(&wrong[0]);
    CHECK(pthread_join(other, NULL) == 0 && wrong[0] + wrong[1] == 0);
    protect(true);
    slotmap_free(&all->map);
    slotmap_keys_free(&all->live);
    slotmap_side_free(&all->side);
    printf("readers: %llu checks, and %d reads and %d copies in each of two threads\n", checks, 4 * READS, 3 * COPIES);
    return 0;
}
