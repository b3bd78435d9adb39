/* SPDX-License-Identifier: MIT
 * Copyright (c) 2026 the Sevlurga maintainers
 *
 * Values of any type in C: an array of one's own. A value stands at its key's index, with the key in it. So a look-up compares
 * two numbers, and calls nothing. A map of keys alone makes the keys, and no live key's index is above slotmap_keys_capacity. */
#include "slotmap.h"
#include <stdio.h>
#include <stdlib.h>

struct item {
    uint64_t key;
    float position[3];
};

struct world {
    slotmap_keys_t keys;
    struct item *items;
    size_t len;
};

static struct item *find(struct world *world, uint64_t key)
{
    uint32_t at = slotmap_index(key);
    return at != 0 && at < world->len && world->items[at].key == key ? &world->items[at] : NULL;
}

/* Makes the array long enough for each key of the map. */
static int reach(struct world *world)
{
    size_t len = slotmap_keys_capacity(&world->keys) + 1;
    struct item *items = realloc(world->items, len * sizeof *items);
    if (items == NULL)
        return 0;
    world->items = items;
    for (; world->len < len; world->len++)
        items[world->len].key = 0;
    return 1;
}

static struct item *add(struct world *world)
{
    uint64_t key = 0;
    if (slotmap_keys_insert(&world->keys, &key) != SLOTMAP_OK)
        return NULL;
    if (slotmap_index(key) >= world->len && !reach(world)) {
        slotmap_keys_remove(&world->keys, key);
        return NULL;
    }
    world->items[slotmap_index(key)].key = key;
    return &world->items[slotmap_index(key)];
}

static int take(struct world *world, uint64_t key)
{
    struct item *item = find(world, key);
    if (item == NULL)
        return 0;
    slotmap_keys_remove(&world->keys, key);
    item->key = 0;
    return 1;
}

int main(void)
{
    struct world world = {SLOTMAP_INIT, NULL, 0};
    static uint64_t keys[1000];
    unsigned i, turn;
    if (slotmap_keys_open(&world.keys) != SLOTMAP_OK)
        return 1;
    for (turn = 0; turn < 1000; turn++)
        for (i = turn % 7; i < 1000; i += 7) {
            uint64_t stale = keys[i];
            struct item *item;
            if (stale != 0 && !take(&world, stale))
                return 2;
            item = add(&world);
            if (item == NULL)
                return 1;
            item->position[0] = (float)i;
            keys[i] = item->key;
            if (find(&world, stale) != NULL)
                return 3;
        }
    for (i = 0; i < 1000; i++)
        if (find(&world, keys[i]) == NULL || find(&world, keys[i])->position[0] != (float)i)
            return 4;
    printf("%u items, %u turns: no stale key was found\n", (unsigned)slotmap_keys_len(&world.keys), turn);
    slotmap_keys_free(&world.keys);
    free(world.items);
    return 0;
}
