/* CHECK(fact) stops the test where the fact is false; `checks` counts those that held. */
#ifndef CHECK_H
#define CHECK_H
#include <stdio.h>
#include <stdlib.h>

static unsigned long long checks;

#define CHECK(fact) \
    do { \
        if (!(fact)) { \
            fprintf(stderr, "%s:%d: %s\n", __FILE__, __LINE__, #fact); \
            exit(1); \
        } \
        checks++; \
    } while (0)

#endif
