/* SPDX-License-Identifier: MIT
 * Copyright (c) 2026 the Sevlurga maintainers
 *
 * A map or a side table whose values are Python objects. A value of the proved table is the pointer of an object, of which the table
 * owns a reference.
 *
 * No call here but table_end and table_traverse runs Python code: what a call takes out, it hands to the caller, who ends it. Where the
 * interpreter has no lock, each other takes the one of the table; else the interpreter's own suffices. */
#ifndef TABLE_H
#define TABLE_H

#define PY_SSIZE_T_CLEAN
#include <Python.h>
#include <stdbool.h>
#include <stdint.h>

#include "slotmap.h"

enum { KNOWN = 4096 };
typedef struct {
    uint64_t key;
    PyObject *object;
} Known;

typedef struct {
    PyObject_HEAD
    bool is_side;
    union {
        slotmap_t map;
        slotmap_side_t side;
    } in;
    /* Of a side table: the key at each index below `room`, or 0. The proved calls have no step from key to key. */
    uint64_t *keys;
    size_t room;
    /* Count the changes of the set of keys, and those of values. */
    uint64_t changes, writes;
    /* No key has an index up to this. So a loop that removes the first key until there is none passes each vacant slot once. */
    uint32_t vacant;
    /* Keys that iterators returned, with their objects, at the indices below `known_room`, which is at most KNOWN. They save an iteration
     * over a small map the making of its numbers. Each is compared with the key before it is used, so one of a removed key is no fault. */
    Known *known;
    size_t known_room;
} Table;

/* What an iterator has read ahead of a table: `count` pairs, of which those before `at` were handed out. The keys are live as long as
 * the table has `changes`, and the values are theirs as long as it has `writes` too. One that goes backwards has all pairs, in `all`. */
enum { AHEAD = 64 };
typedef struct {
    uint64_t last, changes, writes;
    size_t at, count;
    uint64_t *keys, *values, *all, few[2 * AHEAD];
} Ahead;

/* Beside those of slotmap.h: the keys changed since `changes`. */
#define TABLE_CHANGED ((slotmap_status)100)

slotmap_status table_open(Table *table);
/* Ends all values, and frees the table. Nobody else can use it any more. */
void table_end(Table *table);
int table_traverse(Table *table, visitproc visit, void *argument);

size_t table_len(Table *table);
size_t table_capacity(Table *table);
slotmap_status table_reserve(Table *table, size_t count);
bool table_contains(Table *table, uint64_t key);
/* Writes a new reference. */
slotmap_status table_get(Table *table, uint64_t key, PyObject **value);
/* Removes a key, and writes the reference that the table had. */
slotmap_status table_remove(Table *table, uint64_t key, PyObject **value);
slotmap_status table_insert(Table *map, PyObject *value, uint64_t *key);
slotmap_status table_set(Table *map, uint64_t key, PyObject *value, PyObject **old);
slotmap_status table_detach(Table *map, uint64_t key, PyObject **value);
slotmap_status table_reattach(Table *map, uint64_t key, PyObject *value);
/* Writes the reference to the value that made way, or null. */
slotmap_status table_put(Table *side, uint64_t key, PyObject *value, PyObject **old);
/* Returns the key at the index of another, or 0. */
uint64_t table_at(Table *side, uint64_t key);
/* The same as table_put, if `older` stands at the key's index, or none if it is 0. Else it returns TABLE_CHANGED and changes nothing. */
slotmap_status table_exchange(Table *side, uint64_t key, PyObject *value, uint64_t older, PyObject **old);
/* Writes a new reference to the key's value, which is put before if it has none, and what made way. */
slotmap_status table_put_default(Table *side, uint64_t key, PyObject *value, PyObject **found, PyObject **old);
/* Writes the first key. */
slotmap_status table_first(Table *table, uint64_t *key);
/* Begins an iteration, also backwards. */
void table_begin(Table *table, Ahead *ahead);
slotmap_status table_begin_last(Table *table, Ahead *ahead);
/* Writes the next key, and a new reference to its value, unless `value` is null: what was read ahead, if the table is as it was then,
 * and otherwise what the table has. */
slotmap_status table_look(Table *table, Ahead *ahead, uint64_t *key, PyObject **value);
static inline slotmap_status table_step(Table *table, Ahead *ahead, uint64_t *key, PyObject **value);
/* Makes the object of a key, and remembers it, unless its index is large or memory runs out. Returns null, with an exception, if there is
 * no memory for the object. Without the interpreter's lock it remembers none. */
PyObject *table_make_key(Table *table, uint64_t key);
/* Returns an object of a key for an iterator, or null. */
static inline PyObject *table_key(Table *table, uint64_t key);
/* Removes the keys after another, as far as the arrays go, and writes them and the references that the table had. */
size_t table_drain(Table *table, uint64_t after, uint64_t *keys, uint64_t *values, size_t most);
/* Writes all keys with new references into two arrays of one new block, `keys`, which the caller frees. */
slotmap_status table_list(Table *table, uint64_t **keys, uint64_t **values, size_t *count);
/* Opens `copy`, which is closed, with the same keys and values. */
slotmap_status table_clone(Table *table, Table *copy);

static inline PyObject *table_object(uint64_t value) { return (PyObject *)(uintptr_t)value; }

static inline PyObject *table_key(Table *table, uint64_t key)
{
    uint32_t index = (uint32_t)key;
    if (index >= table->known_room || table->known[index].key != key)
        return table_make_key(table, key);
    Py_INCREF(table->known[index].object);
    return table->known[index].object;
}

static inline slotmap_status table_step(Table *table, Ahead *ahead, uint64_t *key, PyObject **value)
{
#ifndef Py_GIL_DISABLED
    if (ahead->at < ahead->count && table->changes == ahead->changes && table->writes == ahead->writes) {
        *key = ahead->keys[ahead->at];
        if (value != NULL)
            Py_INCREF(*value = table_object(ahead->values[ahead->at]));
        ahead->at++;
        return SLOTMAP_OK;
    }
#endif
    return table_look(table, ahead, key, value);
}

#endif
