/* SPDX-License-Identifier: MIT
 * Copyright (c) 2026 the Sevlurga maintainers
 *
 * The calls of table.h. */
#include "table.h"

#include <stdlib.h>
#include <string.h>

#ifdef Py_GIL_DISABLED
#define LOCKED(table) Py_BEGIN_CRITICAL_SECTION((PyObject *)(table));
#define UNLOCKED() Py_END_CRITICAL_SECTION();
#else
#define LOCKED(table) {
#define UNLOCKED() }
#endif

static uint64_t number_of(PyObject *object) { return (uint64_t)(uintptr_t)object; }

slotmap_status table_open(Table *table) { return table->is_side ? slotmap_side_new(&table->in.side) : slotmap_new(&table->in.map); }

/* The first keys of a side table whose index is above another. */
static size_t list_side(Table *side, uint32_t after, uint64_t *keys, uint64_t *values, size_t most)
{
    size_t count = 0;
    for (size_t at = (size_t)after + 1; at < side->room && count < most; at++)
        if (side->keys[at] != 0 && slotmap_side_get(&side->in.side, side->keys[at], &values[count]) == SLOTMAP_OK)
            keys[count++] = side->keys[at];
    return count;
}

/* The first keys with their values whose index is above that of another, as far as the arrays go. Here and below: without the lock. */
static size_t list_after(Table *table, uint64_t after, uint64_t *keys, uint64_t *values, size_t most)
{
    uint32_t from = (uint32_t)after > table->vacant ? (uint32_t)after : table->vacant;
    size_t count = table->is_side ? list_side(table, from, keys, values, most) : slotmap_list_after(&table->in.map, from, keys, most, values, most);
    if (count > 0 && from == table->vacant)
        table->vacant = (uint32_t)keys[0] - 1;
    return count;
}

static slotmap_status next_of(Table *table, uint64_t after, uint64_t *key, uint64_t *value)
{
    return list_after(table, after, key, value, 1) > 0 ? SLOTMAP_OK : SLOTMAP_NO_MORE;
}

/* Counts that a key became live. */
static void comes(Table *table, uint64_t key)
{
    table->changes++;
    if ((uint32_t)key <= table->vacant)
        table->vacant = (uint32_t)key - 1;
}

void table_end(Table *table)
{
    uint64_t key = SLOTMAP_START, value = 0;
    while (next_of(table, key, &key, &value) == SLOTMAP_OK)
        Py_DecRef(table_object(value));
    if (table->is_side)
        slotmap_side_free(&table->in.side);
    else
        slotmap_free(&table->in.map);
    free(table->keys);
    table->keys = NULL;
    table->room = 0;
    for (size_t i = 0; i < table->known_room; i++)
        Py_XDECREF(table->known[i].object);
    free(table->known);
    table->known = NULL;
    table->known_room = 0;
}

/* The collector calls it while no other thread runs. */
int table_traverse(Table *table, visitproc visit, void *argument)
{
    uint64_t key = SLOTMAP_START, value = 0;
    while (next_of(table, key, &key, &value) == SLOTMAP_OK) {
        int found = visit(table_object(value), argument);
        if (found != 0)
            return found;
    }
    return 0;
}

size_t table_len(Table *table)
{
    size_t count;
    LOCKED(table)
    count = table->is_side ? slotmap_side_len(&table->in.side) : slotmap_len(&table->in.map);
    UNLOCKED()
    return count;
}

size_t table_capacity(Table *table)
{
    size_t count;
    LOCKED(table)
    count = table->is_side ? slotmap_side_capacity(&table->in.side) : slotmap_capacity(&table->in.map);
    UNLOCKED()
    return count;
}

/* Makes room for the keys of a side table up to an index. */
static slotmap_status make_room(Table *side, size_t index)
{
    if (index < side->room)
        return SLOTMAP_OK;
    size_t room = index + 1 > 2 * side->room ? index + 1 : 2 * side->room;
    uint64_t *keys = realloc(side->keys, room * sizeof *keys);
    if (keys == NULL)
        return SLOTMAP_NO_MEMORY;
    memset(keys + side->room, 0, (room - side->room) * sizeof *keys);
    side->keys = keys;
    side->room = room;
    return SLOTMAP_OK;
}

static slotmap_status reserve_side(Table *side, size_t index)
{
    slotmap_status status = slotmap_side_reserve(&side->in.side, index);
    return status == SLOTMAP_OK ? make_room(side, index) : status;
}

slotmap_status table_reserve(Table *table, size_t count)
{
    slotmap_status status;
    LOCKED(table)
    status = table->is_side ? reserve_side(table, count) : slotmap_reserve(&table->in.map, count);
    UNLOCKED()
    return status;
}

bool table_contains(Table *table, uint64_t key)
{
    bool found;
    LOCKED(table)
    found = table->is_side ? slotmap_side_contains(&table->in.side, key) : slotmap_contains(&table->in.map, key);
    UNLOCKED()
    return found;
}

static slotmap_status get_of(Table *table, uint64_t key, uint64_t *number)
{
    return table->is_side ? slotmap_side_get(&table->in.side, key, number) : slotmap_get(&table->in.map, key, number);
}

slotmap_status table_get(Table *table, uint64_t key, PyObject **value)
{
    slotmap_status status;
    uint64_t number = 0;
    LOCKED(table)
    status = get_of(table, key, &number);
    if (status == SLOTMAP_OK)
        Py_INCREF(*value = table_object(number));
    UNLOCKED()
    return status;
}

static slotmap_status remove_key(Table *table, uint64_t key, uint64_t *number)
{
    slotmap_status status = table->is_side ? slotmap_side_remove(&table->in.side, key, number) : slotmap_remove(&table->in.map, key, number);
    if (status != SLOTMAP_OK)
        return status;
    table->changes++;
    if (table->is_side)
        table->keys[(uint32_t)key] = 0;
    return SLOTMAP_OK;
}

slotmap_status table_remove(Table *table, uint64_t key, PyObject **value)
{
    slotmap_status status;
    uint64_t number = 0;
    LOCKED(table)
    status = remove_key(table, key, &number);
    UNLOCKED()
    if (status == SLOTMAP_OK)
        *value = table_object(number);
    return status;
}

slotmap_status table_insert(Table *map, PyObject *value, uint64_t *key)
{
    slotmap_status status;
    LOCKED(map)
    status = slotmap_insert(&map->in.map, number_of(value), key);
    if (status == SLOTMAP_OK) {
        Py_INCREF(value);
        comes(map, *key);
    }
    UNLOCKED()
    return status;
}

slotmap_status table_set(Table *map, uint64_t key, PyObject *value, PyObject **old)
{
    slotmap_status status;
    uint64_t number = 0;
    LOCKED(map)
    status = slotmap_set(&map->in.map, key, number_of(value), &number);
    if (status == SLOTMAP_OK) {
        Py_INCREF(value);
        map->writes++;
    }
    UNLOCKED()
    if (status == SLOTMAP_OK)
        *old = table_object(number);
    return status;
}

slotmap_status table_detach(Table *map, uint64_t key, PyObject **value)
{
    slotmap_status status;
    uint64_t number = 0;
    LOCKED(map)
    status = slotmap_detach(&map->in.map, key, &number);
    map->changes += status == SLOTMAP_OK;
    UNLOCKED()
    if (status == SLOTMAP_OK)
        *value = table_object(number);
    return status;
}

slotmap_status table_reattach(Table *map, uint64_t key, PyObject *value)
{
    slotmap_status status;
    LOCKED(map)
    status = slotmap_reattach(&map->in.map, key, number_of(value));
    if (status == SLOTMAP_OK) {
        Py_INCREF(value);
        comes(map, key);
    }
    UNLOCKED()
    return status;
}

static slotmap_status put_of(Table *side, uint64_t key, PyObject *value, uint64_t *old)
{
    uint64_t older = 0;
    /* For a number that no map returns, which is refused, there is no room either. */
    slotmap_status status = key == SLOTMAP_NULL ? SLOTMAP_NO_ENTRY : make_room(side, (uint32_t)key);
    if (status == SLOTMAP_OK)
        status = slotmap_side_exchange(&side->in.side, key, number_of(value), &older, old);
    if (status != SLOTMAP_OK)
        return status;
    Py_INCREF(value);
    side->writes++;
    if (older != key)
        comes(side, key);
    side->keys[(uint32_t)key] = key;
    return SLOTMAP_OK;
}

slotmap_status table_put(Table *side, uint64_t key, PyObject *value, PyObject **old)
{
    slotmap_status status;
    uint64_t number = 0;
    LOCKED(side)
    status = put_of(side, key, value, &number);
    UNLOCKED()
    *old = table_object(number);
    return status;
}

static uint64_t at_index(Table *side, uint64_t key) { return (uint32_t)key < side->room ? side->keys[(uint32_t)key] : 0; }

uint64_t table_at(Table *side, uint64_t key)
{
    uint64_t found;
    LOCKED(side)
    found = at_index(side, key);
    UNLOCKED()
    return found;
}

slotmap_status table_exchange(Table *side, uint64_t key, PyObject *value, uint64_t older, PyObject **old)
{
    slotmap_status status = TABLE_CHANGED;
    uint64_t number = 0;
    LOCKED(side)
    if (at_index(side, key) == older)
        status = put_of(side, key, value, &number);
    UNLOCKED()
    *old = table_object(number);
    return status;
}

slotmap_status table_put_default(Table *side, uint64_t key, PyObject *value, PyObject **found, PyObject **old)
{
    slotmap_status status;
    uint64_t number = 0, there = number_of(value);
    LOCKED(side)
    status = get_of(side, key, &there);
    if (status != SLOTMAP_OK)
        status = put_of(side, key, value, &number);
    if (status == SLOTMAP_OK)
        Py_INCREF(*found = table_object(there));
    UNLOCKED()
    *old = table_object(number);
    return status;
}

slotmap_status table_first(Table *table, uint64_t *key)
{
    slotmap_status status = SLOTMAP_NO_MORE;
    uint64_t number = 0;
    LOCKED(table)
    if ((table->is_side ? slotmap_side_len(&table->in.side) : slotmap_len(&table->in.map)) > 0)
        status = next_of(table, SLOTMAP_START, key, &number);
    UNLOCKED()
    return status;
}

void table_begin(Table *table, Ahead *ahead)
{
    ahead->keys = ahead->few;
    ahead->values = ahead->few + AHEAD;
    ahead->last = SLOTMAP_START;
    LOCKED(table)
    ahead->changes = table->changes;
    UNLOCKED()
}

/* Two arrays for all keys and values. */
static uint64_t *arrays_for(Table *table, size_t *most)
{
    *most = table->is_side ? slotmap_side_len(&table->in.side) : slotmap_len(&table->in.map);
    return malloc(2 * (*most + 1) * sizeof(uint64_t));
}

static slotmap_status begin_last(Table *table, Ahead *ahead)
{
    size_t most;
    uint64_t *keys = ahead->all = arrays_for(table, &most);
    if (keys == NULL)
        return SLOTMAP_NO_MEMORY;
    uint64_t *values = keys + most;
    size_t count = list_after(table, SLOTMAP_START, keys, values, most);
    for (size_t i = 0; i < count / 2; i++) {
        uint64_t key = keys[i], value = values[i];
        keys[i] = keys[count - 1 - i];
        values[i] = values[count - 1 - i];
        keys[count - 1 - i] = key;
        values[count - 1 - i] = value;
    }
    ahead->keys = keys;
    ahead->values = values;
    ahead->count = count;
    ahead->changes = table->changes;
    ahead->writes = table->writes;
    return SLOTMAP_OK;
}

slotmap_status table_begin_last(Table *table, Ahead *ahead)
{
    slotmap_status status;
    LOCKED(table)
    status = begin_last(table, ahead);
    UNLOCKED()
    return status;
}

/* Reads the next pairs. The first look reads a few, since many iterators are asked once. */
static void read_ahead(Table *table, Ahead *ahead)
{
    size_t most = ahead->last == SLOTMAP_START ? AHEAD / 8 : AHEAD;
    ahead->at = 0;
    ahead->writes = table->writes;
    ahead->count = ahead->all != NULL ? 0 : list_after(table, ahead->last, ahead->keys, ahead->values, most);
    if (ahead->count > 0)
        ahead->last = ahead->keys[ahead->count - 1];
}

static slotmap_status step_of(Table *table, Ahead *ahead, uint64_t *key, uint64_t *number)
{
    if (table->changes != ahead->changes)
        return TABLE_CHANGED;
    if (ahead->at == ahead->count)
        read_ahead(table, ahead);
    if (ahead->count == 0)
        return SLOTMAP_NO_MORE;
    size_t at = ahead->at++;
    *key = ahead->keys[at];
    *number = ahead->values[at];
    return table->writes == ahead->writes ? SLOTMAP_OK : get_of(table, *key, number);
}

slotmap_status table_look(Table *table, Ahead *ahead, uint64_t *key, PyObject **value)
{
    slotmap_status status;
    uint64_t number = 0;
    LOCKED(table)
    status = step_of(table, ahead, key, &number);
    if (status == SLOTMAP_OK && value != NULL)
        Py_INCREF(*value = table_object(number));
    UNLOCKED()
    return status;
}

#ifndef Py_GIL_DISABLED
static bool make_known(Table *table, size_t index)
{
    size_t before = table->known_room, room = index < 64 ? 64 : index < KNOWN / 2 ? 2 * index : KNOWN;
    if (index < before)
        return true;
    Known *known = index < KNOWN ? realloc(table->known, room * sizeof *known) : NULL;
    if (known == NULL)
        return false;
    memset(known + before, 0, (room - before) * sizeof *known);
    table->known = known;
    table->known_room = room;
    return true;
}
#endif

PyObject *table_make_key(Table *table, uint64_t key)
{
    PyObject *made = PyLong_FromSize_t(key);
#ifdef Py_GIL_DISABLED
    (void)table;
#else
    if (made == NULL || !make_known(table, (uint32_t)key))
        return made;
    Known *known = &table->known[(uint32_t)key];
    Py_XDECREF(known->object);
    Py_INCREF(made);
    known->object = made;
    known->key = key;
#endif
    return made;
}

size_t table_drain(Table *table, uint64_t after, uint64_t *keys, uint64_t *values, size_t most)
{
    size_t count = 0;
    LOCKED(table)
    while (count < most && next_of(table, after, &keys[count], &values[count]) == SLOTMAP_OK) {
        after = keys[count];
        remove_key(table, after, &values[count]);
        count++;
    }
    UNLOCKED()
    return count;
}

static slotmap_status list_all(Table *table, uint64_t **keys, uint64_t **values, size_t *count)
{
    size_t most;
    *keys = arrays_for(table, &most);
    if (*keys == NULL)
        return SLOTMAP_NO_MEMORY;
    *values = *keys + most;
    *count = list_after(table, SLOTMAP_START, *keys, *values, most);
    for (size_t i = 0; i < *count; i++)
        Py_INCREF(table_object((*values)[i]));
    return SLOTMAP_OK;
}

slotmap_status table_list(Table *table, uint64_t **keys, uint64_t **values, size_t *count)
{
    slotmap_status status;
    *count = 0;
    LOCKED(table)
    status = list_all(table, keys, values, count);
    UNLOCKED()
    return status;
}

static slotmap_status clone_side(Table *side, Table *copy)
{
    slotmap_status status = slotmap_side_clone(&side->in.side, &copy->in.side);
    if (status == SLOTMAP_OK && side->room > 0)
        status = make_room(copy, side->room - 1);
    if (status != SLOTMAP_OK) {
        slotmap_side_free(&copy->in.side);
        return status;
    }
    if (side->room > 0)
        memcpy(copy->keys, side->keys, side->room * sizeof *side->keys);
    return SLOTMAP_OK;
}

slotmap_status table_clone(Table *table, Table *copy)
{
    slotmap_status status;
    uint64_t key = SLOTMAP_START, value = 0;
    copy->is_side = table->is_side;
    LOCKED(table)
    copy->vacant = table->vacant;
    status = table->is_side ? clone_side(table, copy) : slotmap_clone(&table->in.map, &copy->in.map);
    while (status == SLOTMAP_OK && next_of(copy, key, &key, &value) == SLOTMAP_OK)
        Py_INCREF(table_object(value));
    UNLOCKED()
    return status;
}
