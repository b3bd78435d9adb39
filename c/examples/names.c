#include "slotmap.h"
#include <stdio.h>

static uint64_t held(const char *name) { return (uint64_t)(uintptr_t)name; }

int main(void)
{
    slotmap_t names = SLOTMAP_INIT;
    uint64_t river = 0, hill = 0, lake = 0, key = SLOTMAP_START, value = 0;
    if (slotmap_new(&names) || slotmap_insert(&names, held("river"), &river) || slotmap_insert(&names, held("hill"), &hill))
        return 1; /* a status other than SLOTMAP_OK: memory ran out */
    slotmap_remove(&names, hill, &value);
    if (slotmap_insert(&names, held("lake"), &lake)) /* reuses hill's slot, under a new key */
        return 1;
    while (slotmap_next(&names, key, &key, &value) == SLOTMAP_OK)
        printf("%#llx: %s\n", (unsigned long long)key, (const char *)(uintptr_t)value);
    printf("hill is %s\n", slotmap_contains(&names, hill) ? "found" : "stale");
    slotmap_free(&names);
    return 0;
}
