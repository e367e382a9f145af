/* What the tests share: a check that names its line, and words that look random. */
#include <stdint.h>
#include <stdio.h>
#include <stdlib.h>

#define CHECK(holds) \
    do { if (!(holds)) { fprintf(stderr, "%s:%d: not so: %s\n", __FILE__, __LINE__, #holds); exit(1); } } while (0)

static uint64_t seed = 1;

static inline uint64_t any(void) {
    seed ^= seed << 13;
    seed ^= seed >> 7;
    return seed ^= seed << 17;
}
