/* Measures small arrays of words beside each other, as arrays.c does large ones: of so many random keys each, one array after another is
 * made and freed (`insert`, by the key), and one is looked up in. measure.h says what it prints.
 *
 *     small [KEYS ..]        how many keys an array has, 1 to 1000 where none is told
 */
#define _GNU_SOURCE
#include <Judy.h>

#include "measure.h"
#include "sellumaq.h"

/* How many arrays are made, each of keys of its own, and how many keys are looked up in the first. */
enum { ARRAY_COUNT = 64, LOOKUPS = 16384 };

struct keys {
    size_t n;
    word *of_array[ARRAY_COUNT], *order;
};

static const char *name(size_t pattern) {
    (void)pattern;
    return "random-64";
}

static struct keys *make(size_t n, size_t pattern) {
    struct keys *keys = room(1, sizeof *keys);
    seed = pattern + n;
    keys->n = n;
    for (size_t at = 0; at < ARRAY_COUNT; at++) {
        keys->of_array[at] = room(n, sizeof(word));
        for (size_t i = 0; i < n; i++) keys->of_array[at][i] = any();
    }
    keys->order = room(LOOKUPS, sizeof(word));
    for (size_t i = 0; i < LOOKUPS; i++) keys->order[i] = keys->of_array[0][any() % n];
    return keys;
}

static void drop(struct keys *keys) {
    for (size_t at = 0; at < ARRAY_COUNT; at++) free(keys->of_array[at]);
    free(keys->order);
    free(keys);
}

#define NO_SET (sellumaq_judy1){0}
#define NO_MAP (sellumaq_judyl){0}

/* One library's array: `A` is its variable, the other words are statements over it and a key `k`, or expressions. The bytes are those of all
 * arrays together, since malloc tells of a small one little. */
#define MEASURE(NAME, A_TYPE, A_INIT, A_END, PUT, FIND) \
    static void NAME(const struct keys *keys, double *told) { \
        A_TYPE all[ARRAY_COUNT]; \
        size_t held = mallinfo2().uordblks; \
        for (size_t at = 0; at < ARRAY_COUNT; at++) { \
            A_TYPE a = A_INIT; \
            for (size_t i = 0; i < keys->n; i++) { word k = keys->of_array[at][i]; PUT; } \
            all[at] = a; \
        } \
        told[BYTES] = (double)(mallinfo2().uordblks - held) / (keys->n * ARRAY_COUNT); \
        word found = 0, begin = now(); \
        A_TYPE a = all[0]; \
        for (size_t i = 0; i < LOOKUPS; i++) { word k = keys->order[i]; found += FIND; } \
        took(told, HIT, begin, LOOKUPS); \
        for (size_t at = 0; at < ARRAY_COUNT; at++) { \
            a = all[at]; \
            A_END; \
        } \
        begin = now(); \
        for (size_t at = 0; at < ARRAY_COUNT; at++) { \
            A_TYPE a = A_INIT; \
            for (size_t i = 0; i < keys->n; i++) { word k = keys->of_array[at][i]; PUT; } \
            A_END; \
        } \
        took(told, INSERT, begin, keys->n * ARRAY_COUNT); \
        sink += found; \
    }

MEASURE(judy1_sellumaq, sellumaq_judy1, NO_SET, sellumaq_judy1_free(&a), sellumaq_judy1_set(&a, k), sellumaq_judy1_test(&a, k))
MEASURE(judy1_libjudy, Pvoid_t, NULL, Judy1FreeArray(&a, PJE0), Judy1Set(&a, k, PJE0), Judy1Test(a, k, PJE0))

static word sellumaq_value(sellumaq_judyl *map, word key) {
    word value = 0;
    return sellumaq_judyl_get(map, key, &value) ? value : 0;
}

static word libjudy_value(Pvoid_t map, word key) {
    word *slot = (word *)JudyLGet(map, key, PJE0);
    return slot ? *slot : 0;
}

MEASURE(judyl_sellumaq, sellumaq_judyl, NO_MAP, sellumaq_judyl_free(&a), (void)sellumaq_judyl_put(&a, k, k), sellumaq_value(&a, k))
MEASURE(judyl_libjudy, Pvoid_t, NULL, JudyLFreeArray(&a, PJE0), *(word *)JudyLIns(&a, k, PJE0) = k, libjudy_value(a, k))

#ifdef WITH_STD
void *btree_set_new(void);
void btree_set_free(void *set);
void btree_set_insert(void *set, word key);
bool btree_set_has(const void *set, word key);
void *btree_map_new(void);
void btree_map_free(void *map);
void btree_map_insert(void *map, word key, word value);
word btree_map_value(const void *map, word key);

MEASURE(judy1_btree, void *, btree_set_new(), btree_set_free(a), btree_set_insert(a, k), btree_set_has(a, k))
MEASURE(judyl_btree, void *, btree_map_new(), btree_map_free(a), btree_map_insert(a, k, k), btree_map_value(a, k))
#endif

static const struct array ARRAYS[] = {
    {"judy1", "sellumaq", judy1_sellumaq}, {"judy1", "libjudy", judy1_libjudy}, {"judy1", "again", judy1_libjudy},
    {"judyl", "sellumaq", judyl_sellumaq}, {"judyl", "libjudy", judyl_libjudy}, {"judyl", "again", judyl_libjudy},
#ifdef WITH_STD
    {"judy1", "btreemap", judy1_btree},    {"judyl", "btreemap", judyl_btree},
#endif
};

int main(int count, char **words) {
    static char *usual[] = {"small", "1", "3", "10", "30", "100", "300", "1000"};
    struct program program = {ARRAYS, sizeof ARRAYS / sizeof *ARRAYS, 1, name, make, drop};
    return count > 1 ? measure_all(&program, count, words) : measure_all(&program, sizeof usual / sizeof *usual, usual);
}
