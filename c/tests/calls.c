/* Every call of slotmap.h, as C99 and as C++: what it returns, what it writes, and what it leaves alone. */
#include "check.h"
#include "slotmap.h"

#include <string.h>

#define NULL_KEY SLOTMAP_NULL
#define UNWRITTEN UINT64_C(77)

enum { COUNT = 1000, TURNS = 1000000, GAPS = 10000, APART = 97 };

static uint64_t keys[COUNT], listed[COUNT + 5], values[COUNT + 5];

/* A closed handle reads as an empty map, and no call opens it but slotmap_new and slotmap_clone. */
static void check_closed(slotmap_t *map)
{
    uint64_t out = UNWRITTEN, key = UNWRITTEN;
    slotmap_t other = SLOTMAP_INIT;
    CHECK(slotmap_len(map) == 0 && slotmap_capacity(map) == 0);
    CHECK(slotmap_reserve(map, 5) == SLOTMAP_CLOSED);
    CHECK(slotmap_insert(map, 1, &out) == SLOTMAP_CLOSED);
    CHECK(!slotmap_contains(map, UINT64_C(0x100000001)));
    CHECK(slotmap_get(map, UINT64_C(0x100000001), &out) == SLOTMAP_NOT_LIVE);
    CHECK(slotmap_set(map, UINT64_C(0x100000001), 5, &out) == SLOTMAP_NOT_LIVE);
    CHECK(slotmap_remove(map, UINT64_C(0x100000001), &out) == SLOTMAP_NOT_LIVE);
    CHECK(slotmap_delete(map, UINT64_C(0x100000001)) == SLOTMAP_NOT_LIVE);
    CHECK(slotmap_detach(map, UINT64_C(0x100000001), &out) == SLOTMAP_NOT_LIVE);
    CHECK(slotmap_reattach(map, UINT64_C(0x100000001), 5) == SLOTMAP_NOT_DETACHED);
    CHECK(slotmap_next(map, SLOTMAP_START, &key, &out) == SLOTMAP_NO_MORE);
    CHECK(slotmap_list(map, listed, 2, values, 2) == 0);
    CHECK(slotmap_list_after(map, SLOTMAP_START, listed, 2, values, 2) == 0);
    CHECK(slotmap_clone(map, &other) == SLOTMAP_CLOSED && other.at == NULL);
    slotmap_clear(map);
    slotmap_free(map);
    CHECK(out == UNWRITTEN && key == UNWRITTEN && map->at == NULL);
}

/* A key is the first of its slot, then the second, and a stale one is never found. */
static void check_keys(slotmap_t *map)
{
    uint64_t a = 0, b = 0, c = 0, out = UNWRITTEN;
    CHECK(slotmap_insert(map, 10, &a) == SLOTMAP_OK && a == UINT64_C(0x100000001));
    CHECK(slotmap_insert(map, 20, &b) == SLOTMAP_OK && b == UINT64_C(0x100000002));
    CHECK(slotmap_len(map) == 2 && slotmap_capacity(map) >= 2);
    CHECK(slotmap_contains(map, a) && slotmap_contains(map, b));
    CHECK(slotmap_get(map, a, &out) == SLOTMAP_OK && out == 10);
    CHECK(slotmap_set(map, a, 11, &out) == SLOTMAP_OK && out == 10);
    CHECK(slotmap_get(map, a, &out) == SLOTMAP_OK && out == 11);
    CHECK(slotmap_remove(map, a, &out) == SLOTMAP_OK && out == 11);
    out = UNWRITTEN;
    CHECK(!slotmap_contains(map, a));
    CHECK(slotmap_get(map, a, &out) == SLOTMAP_NOT_LIVE && slotmap_set(map, a, 5, &out) == SLOTMAP_NOT_LIVE);
    CHECK(slotmap_remove(map, a, &out) == SLOTMAP_NOT_LIVE && slotmap_detach(map, a, &out) == SLOTMAP_NOT_LIVE);
    CHECK(out == UNWRITTEN);
    CHECK(slotmap_insert(map, 30, &c) == SLOTMAP_OK && c == UINT64_C(0x300000001));
    CHECK(slotmap_get(map, a, &out) == SLOTMAP_NOT_LIVE && slotmap_get(map, c, &out) == SLOTMAP_OK && out == 30);
    CHECK(!slotmap_contains(map, SLOTMAP_START) && !slotmap_contains(map, UINT64_MAX) && !slotmap_contains(map, NULL_KEY));
    /* an even version is read as the odd one after it, as KeyData::from_ffi does */
    CHECK(slotmap_contains(map, UINT64_C(0x200000001)) && !slotmap_contains(map, UINT64_C(0x400000001)));
    CHECK(slotmap_new(map) == SLOTMAP_OPEN && slotmap_len(map) == 2);
}

/* A detached key keeps its slot, and is bound again. */
static void check_detached(slotmap_t *map)
{
    uint64_t a = 0, b = 0, out = 0;
    CHECK(slotmap_insert(map, 1, &a) == SLOTMAP_OK);
    CHECK(slotmap_reattach(map, a, 2) == SLOTMAP_NOT_DETACHED);
    CHECK(slotmap_detach(map, a, &out) == SLOTMAP_OK && out == 1);
    CHECK(!slotmap_contains(map, a) && slotmap_len(map) == 0);
    slotmap_clear(map);
    CHECK(slotmap_insert(map, 3, &b) == SLOTMAP_OK && (uint32_t)b != (uint32_t)a);
    CHECK(slotmap_reattach(map, a, 2) == SLOTMAP_OK && slotmap_get(map, a, &out) == SLOTMAP_OK && out == 2);
    CHECK(slotmap_reattach(map, a, 4) == SLOTMAP_NOT_DETACHED && slotmap_reattach(map, NULL_KEY, 4) == SLOTMAP_NOT_DETACHED);
    CHECK(slotmap_len(map) == 2);
}

/* Room is reserved up to the limit, and then inserts allocate nothing. */
static void check_room(slotmap_t *map)
{
    uint64_t key = 0;
    size_t capacity, i;
    CHECK(slotmap_reserve(map, (size_t)1 << 40) == SLOTMAP_FULL);
    CHECK(slotmap_reserve(map, (size_t)4294967295u) == SLOTMAP_FULL);
    CHECK(slotmap_reserve(map, SIZE_MAX) == SLOTMAP_FULL);
    CHECK(slotmap_reserve(map, COUNT) == SLOTMAP_OK);
    capacity = slotmap_capacity(map);
    for (i = 0; i < COUNT; i++)
        CHECK(slotmap_insert(map, i, &key) == SLOTMAP_OK);
    CHECK(slotmap_capacity(map) == capacity);
    slotmap_clear(map);
    CHECK(slotmap_len(map) == 0 && slotmap_capacity(map) == capacity && !slotmap_contains(map, key));
}

/* A million removals and inserts over a thousand keys, with a look-up of each stale key. */
static void check_turns(slotmap_t *map)
{
    uint64_t out = 0;
    unsigned i, at;
    for (i = 0; i < COUNT; i++)
        CHECK(slotmap_insert(map, i, &keys[i]) == SLOTMAP_OK);
    for (i = 0; i < TURNS; i++) {
        uint64_t stale;
        at = (unsigned)((uint64_t)i * 2654435761u % COUNT);
        stale = keys[at];
        CHECK(slotmap_remove(map, stale, &out) == SLOTMAP_OK);
        CHECK(slotmap_insert(map, i, &keys[at]) == SLOTMAP_OK);
        CHECK(!slotmap_contains(map, stale) && keys[at] != stale);
    }
    CHECK(slotmap_len(map) == COUNT);
}

/* slotmap_next and slotmap_list agree, by ascending index, also while the map changes. */
static void check_walk(slotmap_t *map)
{
    uint64_t key = SLOTMAP_START, value = 0, out = 0;
    size_t i, count = 0;
    listed[COUNT] = values[COUNT] = UNWRITTEN;
    CHECK(slotmap_list(map, listed, COUNT + 5, values, COUNT + 5) == COUNT);
    CHECK(listed[COUNT] == UNWRITTEN && values[COUNT] == UNWRITTEN);
    while (slotmap_next(map, key, &key, &value) == SLOTMAP_OK) {
        CHECK(key == listed[count] && value == values[count]);
        CHECK(slotmap_get(map, key, &out) == SLOTMAP_OK && out == value);
        CHECK(count == 0 || (uint32_t)listed[count - 1] < (uint32_t)key);
        count++;
    }
    CHECK(count == COUNT && key == listed[COUNT - 1]);
    CHECK(slotmap_next(map, NULL_KEY, &key, &value) == SLOTMAP_NO_MORE);
    CHECK(slotmap_next(map, UINT64_MAX, &key, &value) == SLOTMAP_NO_MORE);
    values[3] = listed[3] = UNWRITTEN;
    CHECK(slotmap_list(map, listed, 3, values, COUNT) == 3 && slotmap_list(map, listed, COUNT, values, 0) == 0);
    CHECK(values[3] == UNWRITTEN && listed[3] == UNWRITTEN);
    /* every second key is removed as the walk stands on it */
    for (key = SLOTMAP_START, i = 0; slotmap_next(map, key, &key, &value) == SLOTMAP_OK; i++)
        if (i % 2 == 0)
            CHECK(slotmap_remove(map, key, &out) == SLOTMAP_OK);
    CHECK(i == COUNT && slotmap_len(map) == COUNT / 2);
}

/* slotmap_list_after goes on where the last call stopped, with arrays of each length. */
static void check_blocks(slotmap_t *map)
{
    size_t size, count, len = slotmap_len(map), before = slotmap_list(map, listed, COUNT + 5, values, COUNT + 5);
    CHECK(before == len);
    for (size = 1; size < 70; size++) {
        uint64_t some[70], theirs[70], last = SLOTMAP_START;
        size_t at = 0, i;
        some[size] = theirs[size] = UNWRITTEN;
        while ((count = slotmap_list_after(map, last, some, size, theirs, size)) > 0) {
            for (i = 0; i < count; i++)
                CHECK(some[i] == listed[at + i] && theirs[i] == values[at + i]);
            at += count;
            last = some[count - 1];
            CHECK(count == size || at == len);
        }
        CHECK(at == len && some[size] == UNWRITTEN && theirs[size] == UNWRITTEN);
        CHECK(slotmap_list_after(map, SLOTMAP_START, some, size, theirs, size / 2) == size / 2);
        CHECK(slotmap_list_after(map, NULL_KEY, some, size, theirs, size) == 0);
    }
}

/* Long runs of vacant slots, which a walk passes over by many at a time. */
static void check_gaps(slotmap_t *map)
{
    uint64_t key = SLOTMAP_START, value = 0, some[64], theirs[64];
    size_t count = 0, i;
    for (i = 1; i <= GAPS; i++)
        CHECK(slotmap_insert(map, i, &key) == SLOTMAP_OK && key == (UINT64_C(1) << 32 | i));
    for (i = 1; i <= GAPS; i++)
        if (i % APART != 0)
            CHECK(slotmap_delete(map, UINT64_C(1) << 32 | i) == SLOTMAP_OK);
    for (key = SLOTMAP_START; slotmap_next(map, key, &key, &value) == SLOTMAP_OK; count++)
        CHECK(slotmap_index(key) == (count + 1) * APART && value == slotmap_index(key));
    CHECK(count == GAPS / APART && slotmap_len(map) == count);
    CHECK(slotmap_list_after(map, SLOTMAP_START, some, 64, theirs, 64) == 64 && theirs[63] == 64 * APART);
    CHECK(slotmap_list_after(map, some[63], some, 64, theirs, 64) == count - 64 && theirs[0] == 65 * APART);
}

/* NULL is taken by the calls that free, and in the place of a value that isn't wanted. */
static void check_null(slotmap_t *map)
{
    slotmap_side_t side = SLOTMAP_INIT;
    uint64_t a = 0, b = 0, out = UNWRITTEN;
    CHECK(slotmap_insert(map, 1, &a) == SLOTMAP_OK && slotmap_insert(map, 2, &b) == SLOTMAP_OK);
    CHECK(slotmap_set(map, a, 5, NULL) == SLOTMAP_OK && slotmap_get(map, a, &out) == SLOTMAP_OK && out == 5);
    CHECK(slotmap_remove(map, a, NULL) == SLOTMAP_OK && slotmap_remove(map, a, NULL) == SLOTMAP_NOT_LIVE);
    CHECK(slotmap_detach(map, b, NULL) == SLOTMAP_OK && slotmap_detach(map, b, NULL) == SLOTMAP_NOT_LIVE);
    CHECK(slotmap_side_new(&side) == SLOTMAP_OK && slotmap_side_put(&side, b, 7) == SLOTMAP_OK);
    CHECK(slotmap_side_remove(&side, b, NULL) == SLOTMAP_OK && slotmap_side_len(&side) == 0);
    slotmap_side_free(&side);
    slotmap_side_free(NULL);
    slotmap_keys_free(NULL);
    slotmap_free(NULL);
}

/* The calls that take NULL are macros: an argument may have a comma nonetheless. */
struct two {
    uint64_t first, second;
};
#ifdef __cplusplus
#define TWO two
#else
#define TWO (struct two)
#endif

static void check_commas(slotmap_t *map)
{
    uint64_t a = 0, old = 0;
    slotmap_side_t sides[2] = {SLOTMAP_INIT, SLOTMAP_INIT};
    slotmap_status status = slotmap_insert(map, 3, &a);
    CHECK(status == SLOTMAP_OK && slotmap_side_new(&sides[1]) == SLOTMAP_OK);
    status = slotmap_set(map, TWO{1, a}.second, TWO{1, 2}.second, &old);
    CHECK(status == SLOTMAP_OK && old == 3);
    status = slotmap_detach(map, TWO{1, a}.second, &old);
    CHECK(status == SLOTMAP_OK && old == 2);
    status = slotmap_remove(map, TWO{1, a}.second, &old);
    CHECK(status == SLOTMAP_NOT_LIVE);
    status = slotmap_side_remove(&sides[1], TWO{1, a}.second, &old);
    CHECK(status == SLOTMAP_NOT_LIVE);
    slotmap_side_free(&sides[TWO{0, 1}.second]);
    CHECK(sides[1].at == NULL);
}

/* A copy has the same keys and values, returns the same new keys, and lives apart. */
static void check_clone(slotmap_t *map)
{
    slotmap_t copy = SLOTMAP_INIT;
    uint64_t key = SLOTMAP_START, value = 0, other = 0, new_key = 0, new_other = 0;
    CHECK(slotmap_clone(map, &copy) == SLOTMAP_OK);
    CHECK(slotmap_clone(map, &copy) == SLOTMAP_OPEN);
    CHECK(slotmap_len(&copy) == slotmap_len(map));
    while (slotmap_next(map, key, &key, &value) == SLOTMAP_OK)
        CHECK(slotmap_get(&copy, key, &other) == SLOTMAP_OK && other == value);
    CHECK(slotmap_insert(map, 1, &new_key) == SLOTMAP_OK && slotmap_insert(&copy, 2, &new_other) == SLOTMAP_OK);
    CHECK(new_key == new_other);
    slotmap_free(&copy);
    CHECK(slotmap_get(map, new_key, &value) == SLOTMAP_OK && value == 1);
}

/* A side table keeps the newest key of each index. */
static void check_side(slotmap_t *map)
{
    slotmap_side_t side = SLOTMAP_INIT, copy = SLOTMAP_INIT;
    uint64_t a = 0, b = 0, c = 0, out = UNWRITTEN;
    CHECK(slotmap_insert(map, 1, &a) == SLOTMAP_OK && slotmap_insert(map, 2, &b) == SLOTMAP_OK);
    CHECK(slotmap_side_put(&side, a, 5) == SLOTMAP_CLOSED && slotmap_side_len(&side) == 0);
    CHECK(slotmap_side_get(&side, a, &out) == SLOTMAP_NOT_LIVE && slotmap_side_remove(&side, a, &out) == SLOTMAP_NOT_LIVE);
    CHECK(!slotmap_side_contains(&side, a) && slotmap_side_capacity(&side) == 0 && slotmap_side_reserve(&side, 0) == SLOTMAP_CLOSED);
    CHECK(slotmap_side_clone(&side, &copy) == SLOTMAP_CLOSED && copy.at == NULL && out == UNWRITTEN);
    slotmap_side_clear(&side);
    slotmap_side_free(&side);
    CHECK(slotmap_side_new(&side) == SLOTMAP_OK && slotmap_side_new(&side) == SLOTMAP_OPEN);
    CHECK(slotmap_side_put(&side, a, 5) == SLOTMAP_OK && slotmap_side_put(&side, b, 6) == SLOTMAP_OK);
    CHECK(slotmap_side_put(&side, a, 7) == SLOTMAP_OK && slotmap_side_get(&side, a, &out) == SLOTMAP_OK && out == 7);
    CHECK(slotmap_remove(map, a, &out) == SLOTMAP_OK && slotmap_insert(map, 3, &c) == SLOTMAP_OK && (uint32_t)c == (uint32_t)a);
    CHECK(!slotmap_side_contains(&side, c) && slotmap_side_put(&side, c, 8) == SLOTMAP_OK && !slotmap_side_contains(&side, a));
    CHECK(slotmap_side_put(&side, a, 9) == SLOTMAP_NO_ENTRY && slotmap_side_put(&side, NULL_KEY, 9) == SLOTMAP_NO_ENTRY);
    CHECK(slotmap_side_get(&side, c, &out) == SLOTMAP_OK && out == 8 && slotmap_side_len(&side) == 2);
    CHECK(slotmap_side_reserve(&side, SIZE_MAX) == SLOTMAP_FULL && slotmap_side_reserve(&side, 1000) == SLOTMAP_OK);
    CHECK(slotmap_side_capacity(&side) >= 1000);
    CHECK(slotmap_side_clone(&side, &copy) == SLOTMAP_OK && slotmap_side_clone(&side, &copy) == SLOTMAP_OPEN);
    CHECK(slotmap_side_remove(&side, c, &out) == SLOTMAP_OK && out == 8 && !slotmap_side_contains(&side, c));
    slotmap_side_clear(&side);
    CHECK(slotmap_side_len(&side) == 0 && slotmap_side_len(&copy) == 2 && slotmap_side_contains(&copy, b));
    slotmap_side_free(&copy);
    slotmap_side_free(&side);
    CHECK(side.at == NULL && copy.at == NULL);
}

/* What stood at an index is handed out, and all pairs are listed. */
static void check_exchange(slotmap_t *map)
{
    slotmap_side_t side = SLOTMAP_INIT;
    uint64_t a = 0, b = 0, c = 0, key = UNWRITTEN, out = UNWRITTEN, some[4], theirs[4];
    CHECK(slotmap_insert(map, 1, &a) == SLOTMAP_OK && slotmap_insert(map, 2, &b) == SLOTMAP_OK);
    CHECK(slotmap_side_exchange(&side, a, 5, &key, &out) == SLOTMAP_CLOSED && slotmap_side_list(&side, some, 4, theirs, 4) == 0);
    CHECK(key == UNWRITTEN && out == UNWRITTEN && slotmap_side_new(&side) == SLOTMAP_OK);
    CHECK(slotmap_side_exchange(&side, a, 5, &key, &out) == SLOTMAP_OK && key == 0 && out == UNWRITTEN);
    CHECK(slotmap_side_exchange(&side, a, 6, &key, &out) == SLOTMAP_OK && key == a && out == 5);
    CHECK(slotmap_delete(map, a) == SLOTMAP_OK && slotmap_delete(map, a) == SLOTMAP_NOT_LIVE && slotmap_len(map) == 1);
    /* a table knows nothing of removals, until a newer key is put */
    CHECK(slotmap_side_contains(&side, a) && slotmap_side_exchange(&side, a, 7, &key, &out) == SLOTMAP_OK && key == a && out == 6);
    CHECK(slotmap_insert(map, 3, &c) == SLOTMAP_OK && slotmap_side_exchange(&side, c, 8, &key, &out) == SLOTMAP_OK);
    CHECK(key == a && out == 7);
    key = out = UNWRITTEN;
    CHECK(slotmap_side_exchange(&side, a, 9, &key, &out) == SLOTMAP_NO_ENTRY);
    CHECK(slotmap_side_exchange(&side, NULL_KEY, 9, &key, &out) == SLOTMAP_NO_ENTRY && key == UNWRITTEN && out == UNWRITTEN);
    CHECK(slotmap_side_put(&side, b, 4) == SLOTMAP_OK && slotmap_side_put(&side, 0, 3) == SLOTMAP_OK);
    some[3] = theirs[3] = UNWRITTEN;
    CHECK(slotmap_side_list(&side, some, 4, theirs, 4) == 3 && some[3] == UNWRITTEN && theirs[3] == UNWRITTEN);
    CHECK(some[0] == UINT64_C(0x100000000) && theirs[0] == 3 && some[1] == c && theirs[1] == 8 && some[2] == b && theirs[2] == 4);
    CHECK(slotmap_side_list(&side, some, 1, theirs, 4) == 1 && slotmap_side_list(&side, some, 4, theirs, 0) == 0);
    CHECK(slotmap_side_remove(&side, c, &out) == SLOTMAP_OK && slotmap_side_list(&side, some, 4, theirs, 4) == 2 && some[1] == b);
    slotmap_side_free(&side);
}

/* Of two versions the larger one is the newer, unless they are more than 2147483648 apart. If they are exactly so far apart, neither is. */
static void check_wrapping(slotmap_t *map)
{
    static const struct {
        uint32_t first, second;
        bool newer;
    } rows[] = {{1, 3, true},
                {3, 1, false},
                {1, 0x7fffffff, true},
                {0x7fffffff, 1, false},
                {1, 0x80000001, false},
                {0x80000001, 1, false},
                {1, 0x80000003, false},
                {0x80000003, 1, true},
                {0xffffffff, 1, true},
                {1, 0xffffffff, false}};
    size_t i;
    (void)map;
    for (i = 0; i < sizeof rows / sizeof rows[0]; i++) {
        slotmap_side_t side = SLOTMAP_INIT;
        uint64_t first = (uint64_t)rows[i].first << 32 | 5, second = (uint64_t)rows[i].second << 32 | 5;
        CHECK(slotmap_side_new(&side) == SLOTMAP_OK && slotmap_side_put(&side, first, 1) == SLOTMAP_OK);
        CHECK(slotmap_side_put(&side, second, 2) == (rows[i].newer ? SLOTMAP_OK : SLOTMAP_NO_ENTRY));
        CHECK(slotmap_side_contains(&side, first) == !rows[i].newer && slotmap_side_contains(&side, second) == rows[i].newer);
        slotmap_side_free(&side);
    }
}

/* Each status has a text of its own. */
static void check_texts(void)
{
    slotmap_status a, b;
    for (a = 0; a <= SLOTMAP_NO_ENTRY + 1; a++)
        for (b = 0; b < a; b++)
            CHECK(strcmp(slotmap_status_text(a), slotmap_status_text(b)) != 0);
    CHECK(strcmp(slotmap_status_text(SLOTMAP_NO_MEMORY), "out of memory") == 0 && strlen(SLOTMAP_VERSION) > 0);
}

static void with_new(void (*check)(slotmap_t *))
{
    slotmap_t map = SLOTMAP_INIT;
    CHECK(slotmap_new(&map) == SLOTMAP_OK && map.at != NULL);
    CHECK(slotmap_len(&map) == 0);
    check(&map);
    slotmap_free(&map);
    CHECK(map.at == NULL);
}

static void check_all_keys(slotmap_t *map)
{
    check_turns(map);
    check_walk(map);
    check_blocks(map);
    check_clone(map);
}

int main(void)
{
    slotmap_t map = SLOTMAP_INIT;
    static slotmap_t zeros;
    check_closed(&map);
    check_closed(&zeros);
    with_new(check_keys);
    with_new(check_detached);
    with_new(check_room);
    with_new(check_side);
    with_new(check_exchange);
    with_new(check_wrapping);
    with_new(check_gaps);
    with_new(check_null);
    with_new(check_commas);
    check_texts();
    with_new(check_all_keys);
    CHECK(slotmap_new(&map) == SLOTMAP_OK);
    slotmap_free(&map);
    check_closed(&map);
    printf("calls: %llu checks\n", checks);
    return 0;
}
