/* Random calls on two shared libraries with the names of slotmap.h, side by side: both return and write the same. Capacities may differ, so
 * they aren't asked for. Arguments: both libraries, and the number of calls. POSIX. */
#define _DEFAULT_SOURCE
#include "check.h"
#include "slotmap.h"

#include <dlfcn.h>
#include <stdlib.h>
#include <string.h>

enum { HANDLES = 4, KEYS = 256, LIST = 70 };

/* What one library has: handles, and what its last call returned and wrote. */
static struct side {
    void *library;
    void *handles[3][HANDLES];
    struct {
        uint64_t returned, first, second, keys[LIST], values[LIST];
    } said;
} sides[2];

/* Keys that calls have written: live ones, removed ones, and numbers that were never keys. */
static uint64_t keys[KEYS];
static uint64_t state = 1;

static uint64_t random_below(uint64_t bound)
{
    state ^= state << 13;
    state ^= state >> 7;
    state ^= state << 17;
    return (state >> 11) % bound;
}

/* A function of a library, which takes and returns words: the handle, numbers, and pointers to what is written. */
typedef uint64_t call(void *, uint64_t, uint64_t, uint64_t, uint64_t, uint64_t);

static call *function(const struct side *s, const char *name)
{
    call *found = NULL;
    void *at = dlsym(s->library, name);
    CHECK(at != NULL);
    memcpy(&found, &at, sizeof found);
    return found;
}

/* The calls, with their parameters after the handle: a key, a value, a number of keys, a pointer to a word, the other handle of a copy, or an
 * array (l) with its length. What is returned has 32 bits (i), a byte (b), a word (z), or nothing. The kinds are maps, keys and tables. */
static const struct {
    const char *name, *takes;
    char returns;
    unsigned kind, weight;
} calls[] = {
    {"slotmap_new", "", 'i', 0, 4}, {"slotmap_free", "", '-', 0, 1}, {"slotmap_clone", "o", 'i', 0, 2}, {"slotmap_len", "", 'z', 0, 9},
    {"slotmap_reserve", "n", 'i', 0, 2}, {"slotmap_clear", "", '-', 0, 1}, {"slotmap_insert", "vp", 'i', 0, 400},
    {"slotmap_contains", "k", 'b', 0, 90}, {"slotmap_get", "kp", 'i', 0, 90}, {"slotmap_set", "kvp", 'i', 0, 90},
    {"slotmap_remove", "kp", 'i', 0, 400}, {"slotmap_delete", "k", 'i', 0, 90}, {"slotmap_detach", "kp", 'i', 0, 60},
    {"slotmap_reattach", "kv", 'i', 0, 120}, {"slotmap_next", "kpp", 'i', 0, 90}, {"slotmap_list", "ll", 'z', 0, 4},
    {"slotmap_list_after", "kll", 'z', 0, 9}, {"slotmap_keys_open", "", 'i', 1, 4}, {"slotmap_keys_free", "", '-', 1, 1},
    {"slotmap_keys_clone", "o", 'i', 1, 2}, {"slotmap_keys_len", "", 'z', 1, 9}, {"slotmap_keys_reserve", "n", 'i', 1, 2},
    {"slotmap_keys_clear", "", '-', 1, 1}, {"slotmap_keys_insert", "p", 'i', 1, 400}, {"slotmap_keys_contains", "k", 'b', 1, 90},
    {"slotmap_keys_remove", "k", 'i', 1, 400}, {"slotmap_keys_detach", "k", 'i', 1, 60}, {"slotmap_keys_reattach", "k", 'i', 1, 120},
    {"slotmap_keys_next", "kp", 'i', 1, 90}, {"slotmap_keys_list_after", "kl", 'z', 1, 9}, {"slotmap_side_new", "", 'i', 2, 4},
    {"slotmap_side_free", "", '-', 2, 1}, {"slotmap_side_clone", "o", 'i', 2, 2}, {"slotmap_side_len", "", 'z', 2, 9},
    {"slotmap_side_reserve", "n", 'i', 2, 2}, {"slotmap_side_clear", "", '-', 2, 1}, {"slotmap_side_put", "kv", 'i', 2, 200},
    {"slotmap_side_exchange", "kvpp", 'i', 2, 200}, {"slotmap_side_contains", "k", 'b', 2, 90}, {"slotmap_side_get", "kp", 'i', 2, 90},
    {"slotmap_side_remove", "kp", 'i', 2, 200}, {"slotmap_side_list", "ll", 'z', 2, 4},
};
enum { CALLS = sizeof calls / sizeof *calls };

/* A key that was written, or one near it, or any number with a small index. */
static uint64_t some_key(void)
{
    uint64_t key = keys[random_below(KEYS)];
    switch (random_below(12)) {
    case 0: return key ^ (UINT64_C(1) << (32 + random_below(32)));
    case 1: return (random_below(UINT64_C(1) << 32) << 32) + random_below(300);
    case 2: return random_below(2) ? SLOTMAP_NULL : random_below(4);
    default: return key;
    }
}

/* The arguments are the same for both, but for the places of what a library writes. */
static void make(unsigned at, void *const *targets, const uint64_t *numbers, struct side *s)
{
    static call *found[2][CALLS];
    call **f = &found[s - sides][at];
    uint64_t words[5] = {0}, *out[2] = {&s->said.first, &s->said.second}, *lists[2] = {s->said.keys, s->said.values};
    unsigned count = 0, outs = 0, arrays = 0;
    for (const char *p = calls[at].takes; *p; p++) {
        uint64_t number = numbers[count];
        if (*p == 'p')
            number = (uint64_t)(uintptr_t)out[outs++];
        else if (*p == 'o')
            number = (uint64_t)(uintptr_t)targets[1];
        else if (*p == 'l')
            words[count++] = (uint64_t)(uintptr_t)lists[arrays++];
        words[count] = *p == 'l' ? numbers[4] : number;
        count++;
    }
    if (*f == NULL)
        *f = function(s, calls[at].name);
    s->said.returned = (*f)(targets[0], words[0], words[1], words[2], words[3], words[4]);
    s->said.returned &= calls[at].returns == 'i' ? UINT32_MAX : calls[at].returns == 'b' ? 0xff : calls[at].returns == 'z' ? UINT64_MAX : 0;
}

int main(int argc, char **argv)
{
    unsigned long made[10] = {0}, turns = argc > 3 ? strtoul(argv[3], NULL, 10) : 1000000;
    unsigned weights = 0;
    CHECK(argc > 2);
    for (unsigned i = 0; i < 2; i++)
        CHECK((sides[i].library = dlopen(argv[1 + i], RTLD_NOW | RTLD_LOCAL)) != NULL);
    for (unsigned i = 0; i < CALLS; i++)
        weights += calls[i].weight;
    for (unsigned long turn = 0; turn < turns; turn++) {
        unsigned at = 0, handle = (unsigned)random_below(HANDLES), other = (unsigned)random_below(HANDLES);
        uint64_t drawn = random_below(weights), numbers[5] = {0};
        for (; drawn >= calls[at].weight; at++)
            drawn -= calls[at].weight;
        for (unsigned i = 0; calls[at].takes[i]; i++)
            numbers[i] = calls[at].takes[i] == 'k' ? some_key() : random_below(calls[at].takes[i] == 'n' ? 500 : UINT64_MAX);
        if (calls[at].takes[0] == 'n' && random_below(5) == 0)
            numbers[0] = random_below(2) ? UINT64_MAX : UINT64_C(4294967295);
        numbers[4] = random_below(LIST + 1);
        if (calls[at].takes[0] == 'o' && handle == other)
            continue;
        for (unsigned i = 0; i < 2; i++) {
            void *targets[2] = {&sides[i].handles[calls[at].kind][handle], &sides[i].handles[calls[at].kind][other]};
            make(at, targets, numbers, &sides[i]);
        }
        if (memcmp(&sides[0].said, &sides[1].said, sizeof sides[0].said) != 0) {
            fprintf(stderr, "turn %lu: %s differs: %llx and %llx\n", turn, calls[at].name, (unsigned long long)sides[0].said.returned,
                    (unsigned long long)sides[1].said.returned);
            return 1;
        }
        if (calls[at].returns == 'i')
            made[sides[0].said.returned]++;
        if (strstr(calls[at].name, "insert") != NULL && sides[0].said.returned == SLOTMAP_OK)
            keys[random_below(KEYS)] = sides[0].said.first;
    }
    for (unsigned kind = 0; kind < 3; kind++)
        for (unsigned i = 0; i < 2 * HANDLES; i++)
            function(&sides[i % 2], kind == 0 ? "slotmap_free" : kind == 1 ? "slotmap_keys_free" : "slotmap_side_free")(
                &sides[i % 2].handles[kind][i / 2], 0, 0, 0, 0, 0);
    printf("beside: %lu calls, the same; by status", turns);
    for (unsigned i = 0; i <= SLOTMAP_NO_ENTRY; i++)
        printf(" %lu", made[i]);
    printf("\n");
    return 0;
}
