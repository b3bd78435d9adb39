/* Each allocation is refused in turn: a call says so, leaves all as it was, and succeeds when it is made again.
 * Linked with -Wl,--wrap=malloc,--wrap=realloc. */
#include "check.h"
#include "slotmap.h"

enum { COUNT = 300 };

static long left = -1;

void *__real_malloc(size_t size);
void *__real_realloc(void *old, size_t size);
void *__wrap_malloc(size_t size);
void *__wrap_realloc(void *old, size_t size);

void *__wrap_malloc(size_t size)
{
    return left-- == 0 ? NULL : __real_malloc(size);
}

void *__wrap_realloc(void *old, size_t size)
{
    return left-- == 0 ? NULL : __real_realloc(old, size);
}

static unsigned refused_new, refused_insert, refused_reserve, refused_clone, refused_side;

static void fill(slotmap_t *map, uint64_t *keys)
{
    unsigned i;
    for (i = 0; i < COUNT; i++) {
        uint64_t key = 77;
        slotmap_status status = slotmap_insert(map, i * 3u, &key);
        if (status == SLOTMAP_NO_MEMORY) {
            refused_insert++;
            CHECK(key == 77 && slotmap_len(map) == i);
            status = slotmap_insert(map, i * 3u, &key);
        }
        CHECK(status == SLOTMAP_OK);
        keys[i] = key;
    }
}

static void grow(slotmap_t *map)
{
    size_t capacity = slotmap_capacity(map), len = slotmap_len(map);
    slotmap_status status = slotmap_reserve(map, 10000);
    if (status == SLOTMAP_NO_MEMORY) {
        refused_reserve++;
        CHECK(slotmap_capacity(map) >= capacity && slotmap_len(map) == len);
        status = slotmap_reserve(map, 10000);
    }
    CHECK(status == SLOTMAP_OK);
}

static void copy(slotmap_t *map, slotmap_t *other)
{
    slotmap_status status = slotmap_clone(map, other);
    if (status == SLOTMAP_NO_MEMORY) {
        refused_clone++;
        CHECK(other->at == NULL && slotmap_len(map) == COUNT);
        status = slotmap_clone(map, other);
    }
    CHECK(status == SLOTMAP_OK);
}

static void beside(uint64_t *keys)
{
    slotmap_side_t side = SLOTMAP_INIT;
    uint64_t value = 0;
    unsigned i;
    slotmap_status status = slotmap_side_new(&side);
    if (status == SLOTMAP_NO_MEMORY) {
        refused_side++;
        CHECK(side.at == NULL);
        status = slotmap_side_new(&side);
    }
    CHECK(status == SLOTMAP_OK);
    for (i = 0; i < COUNT; i++) {
        uint64_t stood = 77, old = 77;
        status = slotmap_side_exchange(&side, keys[i], i, &stood, &old);
        if (status == SLOTMAP_NO_MEMORY) {
            refused_side++;
            CHECK(stood == 77 && slotmap_side_len(&side) == i && !slotmap_side_contains(&side, keys[i]));
            status = slotmap_side_put(&side, keys[i], i);
        }
        CHECK(status == SLOTMAP_OK && old == 77);
    }
    for (i = 0; i < COUNT; i++)
        CHECK(slotmap_side_get(&side, keys[i], &value) == SLOTMAP_OK && value == i);
    slotmap_side_free(&side);
}

static void run(void)
{
    slotmap_t map = SLOTMAP_INIT, other = SLOTMAP_INIT;
    uint64_t keys[COUNT], value = 0;
    unsigned i;
    slotmap_status status = slotmap_new(&map);
    if (status == SLOTMAP_NO_MEMORY) {
        refused_new++;
        CHECK(map.at == NULL);
        status = slotmap_new(&map);
    }
    CHECK(status == SLOTMAP_OK);
    fill(&map, keys);
    grow(&map);
    copy(&map, &other);
    for (i = 0; i < COUNT; i++) {
        CHECK(slotmap_get(&map, keys[i], &value) == SLOTMAP_OK && value == i * 3u);
        CHECK(slotmap_get(&other, keys[i], &value) == SLOTMAP_OK && value == i * 3u);
    }
    beside(keys);
    slotmap_free(&map);
    slotmap_free(&other);
}

int main(void)
{
    long refuse;
    for (refuse = 0;; refuse++) {
        left = refuse;
        run();
        if (left >= 0)
            break;
    }
    CHECK(refused_new + refused_insert + refused_reserve + refused_clone + refused_side == (unsigned)refuse);
    printf("refused: %ld allocations, of new %u, insert %u, reserve %u, clone %u, side tables %u; %llu checks\n",
           refuse, refused_new, refused_insert, refused_reserve, refused_clone, refused_side, checks);
    return 0;
}
