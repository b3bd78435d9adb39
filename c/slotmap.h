/* SPDX-License-Identifier: MIT
 * Copyright (c) 2026 the Sevlurga maintainers
 *
 * slotmap.h: a slot map from keys to values of 64 bits.
 *
 * The map makes a key for each value that is inserted. Insertion, look-up and removal take constant time. A removed key is
 * never found again: its slot is reused under a newer key. Keys and values are uint64_t. A value is a number, an index or a
 * pointer, as you like. A side table, at the end of this file, has further values under the keys of a map.
 *
 * What the library does at each call is proved, but not this header: docs/C.md says what that covers.
 *
 * What the caller owes; nothing checks it:
 * 1. A slotmap_t, as a slotmap_side_t, begins as SLOTMAP_INIT, or as zeros. No other code writes to it. An open one may be moved:
 *    copied, if the old one isn't used again. Of two copies that are both used, one may free what the other reads.
 * 2. No pointer is NULL, except where the end of this file allows it. An `out` pointer leads to an initialised variable: the proof
 *    presumes that. No two arguments overlap.
 * 3. An array has as many elements as the number after it says. With 0 elements its pointer still isn't NULL.
 * 4. Calls of two threads on one handle are ordered, as by a mutex or a join. Those to which it is const may overlap one another,
 *    as under a read lock: they write to neither the handle nor what it holds. This is tested, on every archive of c/dist, and not
 *    proved: the proof presumes that one call at a time uses a handle.
 * 5. No call is made from a signal handler, or from the forked child of a process with threads.
 *
 * All else is answered: any number may be passed as a key, and a closed slotmap_t reads as an empty map. A call that can fail
 * returns a status. Where it fails, it leaves its `out` variables as they were, and the map holds what it held.
 *
 * The low half of a key is its index, from 1 on; the high half is its version, which is odd. So keys can be guessed: they are no
 * secret. A number with an even version is read as the key with the next version. So slotmap_contains(&map, 1) is true if the
 * first slot has its first key. Numbers of index 0, as SLOTMAP_START, are no keys of a map. SLOTMAP_NULL is none either, and
 * any number of index 4294967295 is read as it.
 */
#ifndef SLOTMAP_H
#define SLOTMAP_H

#include <stdbool.h>
#include <stddef.h>
#include <stdint.h>

#ifdef __cplusplus
extern "C" {
#endif

/* The version of this header, as text and as a number: 10000 times the first part, and 100 times the second, and the third. */
#define SLOTMAP_VERSION "0.7.0"
#define SLOTMAP_VERSION_NUMBER 700

/* A handle: open, with a map, or closed. `at` is for the library alone; it is null in a closed handle. */
typedef struct slotmap {
    void *at;
} slotmap_t;

/* A closed handle: slotmap_t map = SLOTMAP_INIT; */
#define SLOTMAP_INIT {0}

/* What a call returns. */
typedef uint32_t slotmap_status;

enum {
    SLOTMAP_OK = 0,           /* the call did what it is for */
    SLOTMAP_FULL = 1,         /* so many keys are over the limit of 4294967294 */
    SLOTMAP_NO_MEMORY = 2,    /* memory ran out */
    SLOTMAP_CLOSED = 3,       /* the handle is closed */
    SLOTMAP_OPEN = 4,         /* the handle is open already */
    SLOTMAP_NOT_LIVE = 5,     /* the key isn't live, or isn't in the side table */
    SLOTMAP_NOT_DETACHED = 6, /* the key isn't detached */
    SLOTMAP_NO_MORE = 7,      /* no live key comes later */
    SLOTMAP_NO_ENTRY = 8      /* the key is null, or older than the one at its index of a side table */
};

/* Returns a text for a status, which is never freed. */
static inline const char *slotmap_status_text(slotmap_status status)
{
    switch (status) {
    case SLOTMAP_OK: return "ok";
    case SLOTMAP_FULL: return "over the limit of 4294967294 keys";
    case SLOTMAP_NO_MEMORY: return "out of memory";
    case SLOTMAP_CLOSED: return "the handle is closed";
    case SLOTMAP_OPEN: return "the handle is open already";
    case SLOTMAP_NOT_LIVE: return "the key isn't live";
    case SLOTMAP_NOT_DETACHED: return "the key isn't detached";
    case SLOTMAP_NO_MORE: return "no live key comes later";
    case SLOTMAP_NO_ENTRY: return "the key is null, or older than the one at its index";
    default: return "no status of slotmap.h";
    }
}

/* No map returns this number as a key. From it slotmap_next and slotmap_list_after begin. */
#define SLOTMAP_START UINT64_C(0)

/* The null key: never live, and refused by a side table. */
#define SLOTMAP_NULL UINT64_C(0x1ffffffff)

/* Returns SLOTMAP_VERSION_NUMBER of the library that the program was linked with. */
uint32_t slotmap_version_number(void);

/* ---- The map as a whole ---- */

/* Opens a closed handle with an empty map.
 * SLOTMAP_OK, SLOTMAP_NO_MEMORY, or SLOTMAP_OPEN, which changes nothing. */
slotmap_status slotmap_new(slotmap_t *map);

/* Frees the map and closes the handle. On a closed handle it does nothing. */
void slotmap_free(slotmap_t *map);

/* Opens the closed handle `copy` with a copy of the map. It has the same keys and values, and will return the same new keys; its
 * capacity may be less. The two are different handles. Linear in the number of slots.
 * SLOTMAP_OK, SLOTMAP_NO_MEMORY, SLOTMAP_CLOSED if `map` is closed, or SLOTMAP_OPEN if `copy` is open. */
slotmap_status slotmap_clone(const slotmap_t *map, slotmap_t *copy);

/* Returns the number of live keys. */
size_t slotmap_len(const slotmap_t *map);

/* Returns for how many slots memory is allocated: those of live, detached and retired keys, vacant ones, and those not made yet.
 * No key that the map returned has a greater index. */
size_t slotmap_capacity(const slotmap_t *map);

/* Reserves room for `additional` more keys: the next `additional` calls of slotmap_insert and slotmap_reattach can't fail for
 * want of memory. Linear in the number of slots if the map grows.
 * SLOTMAP_OK, SLOTMAP_FULL, SLOTMAP_NO_MEMORY or SLOTMAP_CLOSED. */
slotmap_status slotmap_reserve(slotmap_t *map, size_t additional);

/* Removes every live key. The capacity stays, and detached keys stay detached. Linear in the number of slots. */
void slotmap_clear(slotmap_t *map);

/* ---- One key ---- */

/* Inserts a value, and writes its new key. If a slot is vacant, the one freed last is reused, and the call can't fail. Constant
 * time, unless the map grows.
 * SLOTMAP_OK, SLOTMAP_FULL, SLOTMAP_NO_MEMORY or SLOTMAP_CLOSED. */
slotmap_status slotmap_insert(slotmap_t *map, uint64_t value, uint64_t *key_out);

/* Returns whether the key is live. Constant time, as are the calls below. */
bool slotmap_contains(const slotmap_t *map, uint64_t key);

/* Writes the value of a live key.
 * SLOTMAP_OK or SLOTMAP_NOT_LIVE. */
slotmap_status slotmap_get(const slotmap_t *map, uint64_t key, uint64_t *value_out);

/* Sets the value of a live key, and writes the value that it had.
 * SLOTMAP_OK or SLOTMAP_NOT_LIVE. */
slotmap_status slotmap_set(slotmap_t *map, uint64_t key, uint64_t value, uint64_t *old_out);

/* Removes a live key, and writes its value. The slot is reused under a newer key. Once its last key, of version 4294967295, is
 * removed, it is retired and never used again.
 * SLOTMAP_OK or SLOTMAP_NOT_LIVE. */
slotmap_status slotmap_remove(slotmap_t *map, uint64_t key, uint64_t *value_out);

/* The same, for a caller who does not want the value.
 * SLOTMAP_OK or SLOTMAP_NOT_LIVE. */
slotmap_status slotmap_delete(slotmap_t *map, uint64_t key);

/* Takes the value of a live key out, and writes it. The key is detached then: it isn't live, and its slot is kept.
 * SLOTMAP_OK or SLOTMAP_NOT_LIVE. */
slotmap_status slotmap_detach(slotmap_t *map, uint64_t key, uint64_t *value_out);

/* Binds a detached key to a value again. The call needs no memory.
 * SLOTMAP_OK or SLOTMAP_NOT_DETACHED. */
slotmap_status slotmap_reattach(slotmap_t *map, uint64_t key, uint64_t value);

/* ---- All keys ---- */

/* Writes the live key with the least index above that of `key`, and its value. The index is the low half of a key. So `key`
 * can be any number, and the map may change between two calls:
 *
 *     uint64_t key = SLOTMAP_START, value = 0;
 *     while (slotmap_next(&map, key, &key, &value) == SLOTMAP_OK) { .. }
 *
 * Here `key` is passed by value and as an `out`, which is no overlap. A loop that inserts at each step may not end. Linear in the
 * number of slots that it passes over.
 * SLOTMAP_OK or SLOTMAP_NO_MORE. */
slotmap_status slotmap_next(const slotmap_t *map, uint64_t key, uint64_t *key_out, uint64_t *value_out);

/* Writes the first live keys and their values, by ascending index, as far as both arrays go. Returns how many it wrote.
 * Linear in the number of slots that it passes over. */
size_t slotmap_list(const slotmap_t *map, uint64_t *keys, size_t keys_len, uint64_t *values, size_t values_len);

/* The same of the live keys whose index is above that of `key`. So a loop over all keys takes arrays of any length:
 *
 *     uint64_t keys[64] = {0}, values[64] = {0}, last = SLOTMAP_START;
 *     size_t count;
 *     while ((count = slotmap_list_after(&map, last, keys, 64, values, 64)) > 0) { last = keys[count - 1]; .. }
 *
 * Linear in the number of slots that it passes over. */
size_t slotmap_list_after(const slotmap_t *map, uint64_t key, uint64_t *keys, size_t keys_len, uint64_t *values, size_t values_len);

/* ---- Side tables ----
 *
 * A side table has further values under the keys of a map. It has at most one value for each index. A put under a newer key takes
 * the place of an older one, never the reverse. So a value that was put under a removed key is never found under the next key of
 * that slot. Versions wrap around: of two versions more than 2147483648 apart, the larger one is the older. If they are exactly so far
 * apart, each counts as older than the other, and a put of either over the other is refused.
 *
 * A table knows nothing of removals. A value under a removed key is found, and may be put again, until a newer key is put at its
 * index: so remove a key from its tables too. Numbers of index 0 are keys like any other here, and all of them share one entry.
 *
 * The caller owes the same as for a map. */

typedef struct slotmap_side {
    void *at;
} slotmap_side_t;

/* Opens a closed handle with an empty table.
 * SLOTMAP_OK, SLOTMAP_NO_MEMORY or SLOTMAP_OPEN. */
slotmap_status slotmap_side_new(slotmap_side_t *side);

/* Frees the table and closes the handle. On a closed handle it does nothing. */
void slotmap_side_free(slotmap_side_t *side);

/* Opens the closed handle `copy` with a copy of the table. The two are different handles. Linear in the number of slots.
 * SLOTMAP_OK, SLOTMAP_NO_MEMORY, SLOTMAP_CLOSED if `side` is closed, or SLOTMAP_OPEN if `copy` is open. */
slotmap_status slotmap_side_clone(const slotmap_side_t *side, slotmap_side_t *copy);

/* Returns the number of keys. */
size_t slotmap_side_len(const slotmap_side_t *side);

/* Returns the largest index for which memory is allocated. */
size_t slotmap_side_capacity(const slotmap_side_t *side);

/* Allocates memory for each index up to `capacity`: a put at such an index can't fail for want of memory. With the capacity of a
 * map that holds for all its keys. If there is memory already, the call succeeds and changes nothing.
 * SLOTMAP_OK, SLOTMAP_FULL if `capacity` is over 4294967294, SLOTMAP_NO_MEMORY or SLOTMAP_CLOSED. */
slotmap_status slotmap_side_reserve(slotmap_side_t *side, size_t capacity);

/* Removes all keys. The capacity stays. Linear in the number of slots. */
void slotmap_side_clear(slotmap_side_t *side);

/* Puts a value under a key, in place of the value of this key or of an older one at its index, which is lost: slotmap_side_exchange
 * hands it out. A table takes 16 bytes for each index up to its capacity, which a put that grows it may double. So one key from
 * outside may take 64 GiB or more: ask the map first whether it is live. Constant time, unless the table grows.
 * SLOTMAP_OK, SLOTMAP_NO_ENTRY, SLOTMAP_NO_MEMORY or SLOTMAP_CLOSED. */
slotmap_status slotmap_side_put(slotmap_side_t *side, uint64_t key, uint64_t value);

/* The same, and writes the key that stood at this index before, with its value: this key or an older one. If none stood there,
 * it writes the key 0, and no value.
 * SLOTMAP_OK, SLOTMAP_NO_ENTRY, SLOTMAP_NO_MEMORY or SLOTMAP_CLOSED. */
slotmap_status slotmap_side_exchange(slotmap_side_t *side, uint64_t key, uint64_t value, uint64_t *key_out, uint64_t *value_out);

/* Returns whether the key has a value. Constant time, as are the two calls below. */
bool slotmap_side_contains(const slotmap_side_t *side, uint64_t key);

/* Writes the value of a key.
 * SLOTMAP_OK or SLOTMAP_NOT_LIVE. */
slotmap_status slotmap_side_get(const slotmap_side_t *side, uint64_t key, uint64_t *value_out);

/* Removes a key, and writes its value.
 * SLOTMAP_OK or SLOTMAP_NOT_LIVE. */
slotmap_status slotmap_side_remove(slotmap_side_t *side, uint64_t key, uint64_t *value_out);

/* Writes the keys and their values, by ascending index, as far as both arrays go. Returns how many it wrote. Linear
 * in the number of slots that it passes over. */
size_t slotmap_side_list(const slotmap_side_t *side, uint64_t *keys, size_t keys_len, uint64_t *values, size_t values_len);

/* ---- Keys alone ----
 *
 * The same map without values: 9 bytes a slot, where a slotmap_t takes 24. It is for a caller whose values lie in memory of its own,
 * as in an array at the index of the key, which is the low half: slotmap_index(key). A live key is the only live one of its index,
 * and no index is above slotmap_keys_capacity, so an array with one more element than that has a place for every live key.
 *
 * Each call does what the call of the same name does for a slotmap_t, and the caller owes the same. */

typedef struct slotmap_keys {
    void *at;
} slotmap_keys_t;

/* Returns the index of a key: its low half. */
static inline uint32_t slotmap_index(uint64_t key) { return key & UINT32_MAX; }

/* Opens a closed handle with an empty map.
 * SLOTMAP_OK, SLOTMAP_NO_MEMORY, or SLOTMAP_OPEN, which changes nothing. */
slotmap_status slotmap_keys_open(slotmap_keys_t *map);

/* Frees the map and closes the handle. On a closed handle it does nothing. */
void slotmap_keys_free(slotmap_keys_t *map);

/* Opens the closed handle `copy` with a copy of the map. The two are different handles. Linear in the number of slots.
 * SLOTMAP_OK, SLOTMAP_NO_MEMORY, SLOTMAP_CLOSED if `map` is closed, or SLOTMAP_OPEN if `copy` is open. */
slotmap_status slotmap_keys_clone(const slotmap_keys_t *map, slotmap_keys_t *copy);

/* Returns the number of live keys. */
size_t slotmap_keys_len(const slotmap_keys_t *map);

/* Returns for how many slots memory is allocated. No key that the map returned has a greater index. */
size_t slotmap_keys_capacity(const slotmap_keys_t *map);

/* Reserves room for `additional` more keys: the next `additional` calls of slotmap_keys_insert and slotmap_keys_reattach can't
 * fail for want of memory. Linear in the number of slots if the map grows.
 * SLOTMAP_OK, SLOTMAP_FULL, SLOTMAP_NO_MEMORY or SLOTMAP_CLOSED. */
slotmap_status slotmap_keys_reserve(slotmap_keys_t *map, size_t additional);

/* Removes every live key. The capacity stays, and detached keys stay detached. Linear in the number of slots. */
void slotmap_keys_clear(slotmap_keys_t *map);

/* Inserts a new key, and writes it. Constant time, unless the map grows.
 * SLOTMAP_OK, SLOTMAP_FULL, SLOTMAP_NO_MEMORY or SLOTMAP_CLOSED. */
slotmap_status slotmap_keys_insert(slotmap_keys_t *map, uint64_t *key_out);

/* Returns whether the key is live. Constant time, as are the three calls below. */
bool slotmap_keys_contains(const slotmap_keys_t *map, uint64_t key);

/* Removes a live key. The slot is reused under a newer key.
 * SLOTMAP_OK or SLOTMAP_NOT_LIVE. */
slotmap_status slotmap_keys_remove(slotmap_keys_t *map, uint64_t key);

/* Detaches a live key: it isn't live then, and its slot is kept.
 * SLOTMAP_OK or SLOTMAP_NOT_LIVE. */
slotmap_status slotmap_keys_detach(slotmap_keys_t *map, uint64_t key);

/* Makes a detached key live again. The call needs no memory.
 * SLOTMAP_OK or SLOTMAP_NOT_DETACHED. */
slotmap_status slotmap_keys_reattach(slotmap_keys_t *map, uint64_t key);

/* Writes the live key with the least index above that of `key`, which can be any number. Linear in the number of slots that it
 * passes over.
 * SLOTMAP_OK or SLOTMAP_NO_MORE. */
slotmap_status slotmap_keys_next(const slotmap_keys_t *map, uint64_t key, uint64_t *key_out);

/* Writes the live keys whose index is above that of `key`, by ascending index, as far as the array goes. Returns how many it wrote:
 *
 *     uint64_t keys[64] = {0}, last = SLOTMAP_START;
 *     size_t count;
 *     while ((count = slotmap_keys_list_after(&map, last, keys, 64)) > 0) { last = keys[count - 1]; .. }
 *
 * Linear in the number of slots that it passes over. */
size_t slotmap_keys_list_after(const slotmap_keys_t *map, uint64_t key, uint64_t *keys, size_t keys_len);

/* ---- NULL ----
 *
 * The three calls that free take NULL and do nothing. The calls that hand out a value which not everybody wants take NULL in the
 * place of its pointer. These are macros, which call the functions of the same names. A pointer to such a function takes no NULL. */

static inline void slotmap_inline_free(slotmap_t *map)
{
    if (map)
        slotmap_free(map);
}

static inline void slotmap_inline_side_free(slotmap_side_t *side)
{
    if (side)
        slotmap_side_free(side);
}

static inline void slotmap_inline_keys_free(slotmap_keys_t *map)
{
    if (map)
        slotmap_keys_free(map);
}

static inline slotmap_status slotmap_inline_set(slotmap_t *map, uint64_t key, uint64_t value, uint64_t *old_out)
{
    uint64_t unread = 0;
    return slotmap_set(map, key, value, old_out ? old_out : &unread);
}

static inline slotmap_status slotmap_inline_remove(slotmap_t *map, uint64_t key, uint64_t *value_out)
{
    uint64_t unread = 0;
    return slotmap_remove(map, key, value_out ? value_out : &unread);
}

static inline slotmap_status slotmap_inline_detach(slotmap_t *map, uint64_t key, uint64_t *value_out)
{
    uint64_t unread = 0;
    return slotmap_detach(map, key, value_out ? value_out : &unread);
}

static inline slotmap_status slotmap_inline_side_remove(slotmap_side_t *side, uint64_t key, uint64_t *value_out)
{
    uint64_t unread = 0;
    return slotmap_side_remove(side, key, value_out ? value_out : &unread);
}

#define slotmap_free(...) slotmap_inline_free(__VA_ARGS__)
#define slotmap_side_free(...) slotmap_inline_side_free(__VA_ARGS__)
#define slotmap_keys_free(...) slotmap_inline_keys_free(__VA_ARGS__)
#define slotmap_set(...) slotmap_inline_set(__VA_ARGS__)
#define slotmap_remove(...) slotmap_inline_remove(__VA_ARGS__)
#define slotmap_detach(...) slotmap_inline_detach(__VA_ARGS__)
#define slotmap_side_remove(...) slotmap_inline_side_remove(__VA_ARGS__)

#ifdef __cplusplus
}
#endif

#endif
