/* Measures a map from byte strings on keys that someone chose: of 16 bytes each, all with one hash, beside as many whose hashes differ.
 * measure.h says what it prints.
 *
 *     one_hash [KEYS ..]      how many keys, 10000 and 1000000 where none is told
 */
#define _GNU_SOURCE
#include "measure.h"
#include "sellumaq.h"

/* A key's two words, the first byte of each its lowest, as the hash takes them. */
typedef struct { word first, last; } key;

struct keys {
    size_t n;
    key *in, *out;
    size_t *order;
};

/* ---- keys ---- */

/* The hash of the library: where it begins, and a step, which multiplies by an odd number. It ends with the lower half. */
static const word BEGIN = 14695981039346656037u, FACTOR = 11400714819323198485u;

static word step(word hash, word it) {
    word product = (hash ^ it) * FACTOR;
    return product ^ (product >> 32);
}

/* The number that undoes a product by an odd one: three of its bits are right to begin with, and twice as many each time. */
static word undoes(word odd) {
    word found = odd;
    for (int bits = 3; bits < 64; bits *= 2) found *= 2 - odd * found;
    return found;
}

static key different(void) { return (key){any(), any()}; }

/* A key whose last product is 7, and its hash too. */
static key of_one_hash(void) {
    word first = any();
    return (key){first, step(BEGIN, first) ^ 7 * undoes(FACTOR)};
}

static const struct {
    const char *name;
    key (*make)(void);
} PATTERNS[] = {{"different", different}, {"one-hash", of_one_hash}};

static const char *name(size_t pattern) { return PATTERNS[pattern].name; }

static struct keys *make(size_t n, size_t pattern) {
    struct keys *keys = room(1, sizeof *keys);
    *keys = (struct keys){n, room(n, sizeof(key)), room(n, sizeof(key)), room(n, sizeof(size_t))};
    seed = pattern + 1;
    for (size_t i = 0; i < n; i++) {
        keys->in[i] = PATTERNS[pattern].make();
        keys->out[i] = PATTERNS[pattern].make();
        size_t j = any() % (i + 1);
        keys->order[i] = keys->order[j];
        keys->order[j] = i;
    }
    return keys;
}

static void drop(struct keys *keys) {
    free(keys->in);
    free(keys->out);
    free(keys->order);
    free(keys);
}

/* ---- measuring ---- */

static void put(sellumaq_judyhs *map, const key *it) {
    word *slot;
    if (sellumaq_judyhs_ins(map, (const uint8_t *)it, sizeof *it, &slot) == SELLUMAQ_FOUND) *slot = 1;
}

static word value(const sellumaq_judyhs *map, const key *it) {
    word found;
    return sellumaq_judyhs_get(map, (const uint8_t *)it, sizeof *it, &found) ? found : 0;
}

static void measure(const struct keys *keys, double *told) {
    word found = 0;
    size_t held = mallinfo2().uordblks;
    sellumaq_judyhs map = {0};
    EACH(INSERT, put(&map, &keys->in[i]));
    told[BYTES] = (double)(mallinfo2().uordblks - held) / keys->n;
    EACH(HIT, found += value(&map, &keys->in[keys->order[i]]));
    EACH(MISS, found += value(&map, &keys->out[i]));
    EACH(DELETE, sellumaq_judyhs_del(&map, (const uint8_t *)&keys->in[keys->order[i]], sizeof(key)));
    sellumaq_judyhs_free(&map);
    sink += found;
}

int main(int count, char **words) {
    const struct array array = {"judyhs", "sellumaq", measure};
    struct program program = {&array, 1, sizeof PATTERNS / sizeof *PATTERNS, name, make, drop};
    return measure_all(&program, count, words);
}
