/* Every call of a map of keys alone, beside a map with values: the same keys, the same statuses, after a million calls by chance. */
#include "check.h"
#include "slotmap.h"

#define UNWRITTEN UINT64_C(77)

enum { TURNS = 1000000, KNOWN = 500 };

static uint64_t known[KNOWN];

static uint64_t chance(void)
{
    static uint64_t state = 88172645463325252u;
    state ^= state << 13;
    state ^= state >> 7;
    return state ^= state << 17;
}

/* A closed handle reads as an empty map, and no call opens it but slotmap_keys_open and slotmap_keys_clone. */
static void check_closed(slotmap_keys_t *map)
{
    uint64_t key = UNWRITTEN, some[2] = {UNWRITTEN, UNWRITTEN};
    slotmap_keys_t other = SLOTMAP_INIT;
    CHECK(slotmap_keys_len(map) == 0 && slotmap_keys_capacity(map) == 0);
    CHECK(slotmap_keys_reserve(map, 5) == SLOTMAP_CLOSED && slotmap_keys_insert(map, &key) == SLOTMAP_CLOSED);
    CHECK(!slotmap_keys_contains(map, UINT64_C(0x100000001)));
    CHECK(slotmap_keys_remove(map, UINT64_C(0x100000001)) == SLOTMAP_NOT_LIVE);
    CHECK(slotmap_keys_detach(map, UINT64_C(0x100000001)) == SLOTMAP_NOT_LIVE);
    CHECK(slotmap_keys_reattach(map, UINT64_C(0x100000001)) == SLOTMAP_NOT_DETACHED);
    CHECK(slotmap_keys_next(map, SLOTMAP_START, &key) == SLOTMAP_NO_MORE);
    CHECK(slotmap_keys_list_after(map, SLOTMAP_START, some, 2) == 0);
    CHECK(slotmap_keys_clone(map, &other) == SLOTMAP_CLOSED && other.at == NULL);
    slotmap_keys_clear(map);
    slotmap_keys_free(map);
    CHECK(key == UNWRITTEN && some[0] == UNWRITTEN && some[1] == UNWRITTEN && map->at == NULL);
}

/* A key is the first of its slot, then the second, and a stale one is never found. */
static void check_rows(slotmap_keys_t *map)
{
    uint64_t a = 0, b = 0, c = 0, some[3] = {UNWRITTEN, UNWRITTEN, UNWRITTEN};
    CHECK(slotmap_keys_insert(map, &a) == SLOTMAP_OK && a == UINT64_C(0x100000001) && slotmap_index(a) == 1);
    CHECK(slotmap_keys_insert(map, &b) == SLOTMAP_OK && b == UINT64_C(0x100000002) && slotmap_keys_len(map) == 2);
    CHECK(slotmap_keys_remove(map, a) == SLOTMAP_OK && slotmap_keys_remove(map, a) == SLOTMAP_NOT_LIVE);
    CHECK(slotmap_keys_insert(map, &c) == SLOTMAP_OK && c == UINT64_C(0x300000001) && !slotmap_keys_contains(map, a));
    CHECK(slotmap_keys_reattach(map, c) == SLOTMAP_NOT_DETACHED && slotmap_keys_detach(map, c) == SLOTMAP_OK);
    CHECK(slotmap_keys_detach(map, c) == SLOTMAP_NOT_LIVE && slotmap_keys_remove(map, c) == SLOTMAP_NOT_LIVE);
    CHECK(!slotmap_keys_contains(map, c) && slotmap_keys_len(map) == 1);
    slotmap_keys_clear(map);
    CHECK(slotmap_keys_len(map) == 0 && slotmap_keys_reattach(map, c) == SLOTMAP_OK && slotmap_keys_contains(map, c));
    CHECK(slotmap_keys_insert(map, &b) == SLOTMAP_OK && b == UINT64_C(0x300000002));
    CHECK(slotmap_keys_list_after(map, SLOTMAP_START, some, 3) == 2 && some[0] == c && some[1] == b && some[2] == UNWRITTEN);
    CHECK(slotmap_keys_list_after(map, c, some, 1) == 1 && some[0] == b && slotmap_keys_list_after(map, b, some, 3) == 0);
    CHECK(slotmap_keys_reserve(map, SIZE_MAX) == SLOTMAP_FULL && slotmap_keys_reserve(map, 1000) == SLOTMAP_OK);
    CHECK(slotmap_keys_capacity(map) >= 1000 && slotmap_keys_open(map) == SLOTMAP_OPEN && slotmap_keys_len(map) == 2);
    slotmap_keys_free(NULL);
}

/* Both maps have the same keys, and a walk yields them in the same order, by steps and by arrays of any length. */
static void check_same(slotmap_keys_t *map, slotmap_t *words)
{
    uint64_t key = SLOTMAP_START, next = SLOTMAP_START, value = 0, some[64], last = SLOTMAP_START;
    size_t length = (size_t)(chance() % 64) + 1, count = 0, at = 0, seen = 0;
    CHECK(slotmap_keys_len(map) == slotmap_len(words) && slotmap_keys_capacity(map) >= slotmap_len(words));
    do {
        slotmap_status status = slotmap_keys_next(map, key, &key);
        CHECK(status == slotmap_next(words, next, &next, &value) && key == next);
        if (at == count) {
            at = 0;
            count = slotmap_keys_list_after(map, last, some, length);
            last = count > 0 ? some[count - 1] : last;
        }
        CHECK((status == SLOTMAP_OK) == (at < count) && (at == count || some[at] == key));
        at++;
        seen += status == SLOTMAP_OK;
    } while (at <= count);
    CHECK(seen == slotmap_len(words));
}

static void turn(slotmap_keys_t *map, slotmap_t *words)
{
    uint64_t *key = &known[chance() % KNOWN], mine = UNWRITTEN, theirs = UNWRITTEN, value = 0;
    switch (chance() % 8) {
    case 0:
    case 1:
    case 2:
        CHECK(slotmap_keys_insert(map, &mine) == SLOTMAP_OK && slotmap_insert(words, 5, &theirs) == SLOTMAP_OK && mine == theirs);
        *key = mine;
        break;
    case 3:
    case 4:
        CHECK(slotmap_keys_remove(map, *key) == slotmap_remove(words, *key, &value));
        break;
    case 5:
        CHECK(slotmap_keys_detach(map, *key) == slotmap_detach(words, *key, &value));
        break;
    case 6:
        CHECK(slotmap_keys_reattach(map, *key) == slotmap_reattach(words, *key, 6));
        break;
    default:
        mine = chance() % 2 ? *key : *key ^ (UINT64_C(1) << chance() % 64);
        CHECK(slotmap_keys_contains(map, mine) == slotmap_contains(words, mine));
    }
}

/* Copies of both go on alike, and leave the first ones as they were. */
static void check_copies(slotmap_keys_t *map, slotmap_t *words)
{
    slotmap_keys_t copy = SLOTMAP_INIT;
    slotmap_t other = SLOTMAP_INIT;
    uint64_t mine = 0, theirs = 0;
    size_t len = slotmap_keys_len(map);
    CHECK(slotmap_keys_clone(map, &copy) == SLOTMAP_OK && slotmap_keys_clone(map, &copy) == SLOTMAP_OPEN);
    CHECK(slotmap_clone(words, &other) == SLOTMAP_OK);
    check_same(&copy, &other);
    CHECK(slotmap_keys_insert(&copy, &mine) == SLOTMAP_OK && slotmap_insert(&other, 1, &theirs) == SLOTMAP_OK && mine == theirs);
    slotmap_keys_clear(&copy);
    CHECK(slotmap_keys_len(&copy) == 0 && slotmap_keys_len(map) == len);
    slotmap_keys_free(&copy);
    slotmap_free(&other);
}

int main(void)
{
    slotmap_keys_t map = SLOTMAP_INIT;
    slotmap_t words = SLOTMAP_INIT;
    unsigned i;
    check_closed(&map);
    CHECK(slotmap_keys_open(&map) == SLOTMAP_OK && map.at != NULL);
    check_rows(&map);
    slotmap_keys_free(&map);
    check_closed(&map);
    CHECK(slotmap_keys_open(&map) == SLOTMAP_OK && slotmap_new(&words) == SLOTMAP_OK);
    for (i = 0; i < TURNS; i++) {
        turn(&map, &words);
        if (i % 10000 == 0)
            check_same(&map, &words);
        if (i % 100000 == 0)
            check_copies(&map, &words);
        if (i % 300000 == 299999) {
            slotmap_keys_clear(&map);
            slotmap_clear(&words);
        }
    }
    check_same(&map, &words);
    slotmap_keys_free(&map);
    slotmap_free(&words);
    CHECK(map.at == NULL && slotmap_version_number() == SLOTMAP_VERSION_NUMBER);
    printf("keys: %llu checks\n", checks);
    return 0;
}
