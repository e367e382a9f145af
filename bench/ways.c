/* Measures calls that do more at once beside those that do it key by key, in one run and on the same keys, and libJudy beside both:
 *
 *   by-key    put, get, next_entry (of a set next), del, and a put for each of the keys in ascending order
 *   at-once   insert and remove, which tell the value that was there, get_many (of a set test_many) of 16 keys, walk of 64 keys, from_sorted
 *   libjudy   JudyLIns, JudyLGet, JudyLNext, JudyLDel (of a set Judy1Set, Judy1Test and fellows), and an insert for each in ascending order
 *
 * measure.h says what it prints.
 *
 *     ways [KEYS ..]         how many keys, 10000 and 1000000 where none is told
 */
#define _GNU_SOURCE
#include <Judy.h>

#include "words.h"

/* How many keys are looked up, and how many are walked over, by one call. */
enum { GROUP = 16, PAGE = 64 };

/* Measures what is done once for all keys. */
#define ONCE(OPERATION, COUNT, ...) \
    do { \
        word begin = now(); \
        __VA_ARGS__; \
        took(told, OPERATION, begin, COUNT); \
    } while (0)

/* ---- maps ---- */

static word value_of(const sellumaq_judyl *map, word key) {
    word value;
    return sellumaq_judyl_get(map, key, &value) ? value : 0;
}

static word values_by_key(const sellumaq_judyl *map, const word *keys, size_t n) {
    word sum = 0;
    for (size_t i = 0; i < n; i++) sum += value_of(map, keys[i]);
    return sum;
}

static word values_at_once(const sellumaq_judyl *map, const word *keys, size_t n) {
    word sum = 0;
    sellumaq_found found[GROUP];
    for (size_t i = 0; i < n; i += GROUP) {
        size_t told = sellumaq_judyl_get_many(map, keys + i, n - i, found, GROUP);
        for (size_t at = 0; at < told; at++) sum += found[at].value;
    }
    return sum;
}

static word walk_by_key(const sellumaq_judyl *map) {
    word sum = 0, key, value;
    for (bool found = sellumaq_judyl_first_entry(map, 0, &key, &value); found; found = sellumaq_judyl_next_entry(map, key, &key, &value)) sum += key + value;
    return sum;
}

static word walk_at_once(const sellumaq_judyl *map) {
    sellumaq_pair page[PAGE];
    word sum = 0, from = 0;
    size_t told;
    do {
        told = sellumaq_judyl_walk(map, from, page, PAGE);
        for (size_t at = 0; at < told; at++) sum += page[at].key + page[at].value;
        from = told ? page[told - 1].key + 1 : 0;
    } while (told == PAGE && from);
    return sum;
}

static void maps_by_key(const struct keys *keys, double *told) {
    sellumaq_judyl map = {0};
    word found = 0;
    EACH(INSERT, found += sellumaq_judyl_put(&map, keys->in[i], keys->in[i]));
    ONCE(HIT, keys->n, found += values_by_key(&map, keys->order, keys->n));
    ONCE(MISS, keys->n, found += values_by_key(&map, keys->out, keys->n));
    ONCE(WALK, keys->distinct, found += walk_by_key(&map));
    EACH(DELETE, found += sellumaq_judyl_del(&map, keys->order[i]));
    ONCE(BULK, keys->distinct, EACH_SORTED(found += sellumaq_judyl_put(&map, k, k)));
    sellumaq_judyl_free(&map);
    sink += found;
}

static void maps_at_once(const struct keys *keys, double *told) {
    sellumaq_judyl map = {0};
    word found = 0, was = 0;
    EACH(INSERT, found += sellumaq_judyl_insert(&map, keys->in[i], keys->in[i], &was) + was);
    ONCE(HIT, keys->n, found += values_at_once(&map, keys->order, keys->n));
    ONCE(MISS, keys->n, found += values_at_once(&map, keys->out, keys->n));
    ONCE(WALK, keys->distinct, found += walk_at_once(&map));
    EACH(DELETE, found += sellumaq_judyl_remove(&map, keys->order[i], &was) + was);
    ONCE(BULK, keys->distinct, found += sellumaq_judyl_from_sorted(&map, keys->pairs, keys->distinct, &(size_t){0}));
    sellumaq_judyl_free(&map);
    sink += found;
}

static word behind(PPvoid_t slot) { return slot ? *(word *)slot : 0; }

static void maps_of_libjudy(const struct keys *keys, double *told) {
    Pvoid_t map = NULL;
    word found = 0;
    EACH(INSERT, *(word *)JudyLIns(&map, keys->in[i], PJE0) = keys->in[i]);
    EACH(HIT, found += behind(JudyLGet(map, keys->order[i], PJE0)));
    EACH(MISS, found += behind(JudyLGet(map, keys->out[i], PJE0)));
    word key = 0;
    ONCE(WALK, keys->distinct, for (PPvoid_t slot = JudyLFirst(map, &key, PJE0); slot; slot = JudyLNext(map, &key, PJE0)) found += key + behind(slot));
    EACH(DELETE, found += (word)JudyLDel(&map, keys->order[i], PJE0));
    ONCE(BULK, keys->distinct, EACH_SORTED(*(word *)JudyLIns(&map, k, PJE0) = k));
    JudyLFreeArray(&map, PJE0);
    sink += found;
}

/* ---- sets ---- */

static word set_by_key(const sellumaq_judy1 *set) {
    word sum = 0, key;
    for (bool found = sellumaq_judy1_first(set, 0, &key); found; found = sellumaq_judy1_next(set, key, &key)) sum += key;
    return sum;
}

static word set_at_once(const sellumaq_judy1 *set) {
    word page[PAGE], sum = 0, from = 0;
    size_t told;
    do {
        told = sellumaq_judy1_walk(set, from, page, PAGE);
        for (size_t at = 0; at < told; at++) sum += page[at];
        from = told ? page[told - 1] + 1 : 0;
    } while (told == PAGE && from);
    return sum;
}

static word tests_by_key(const sellumaq_judy1 *set, const word *keys, size_t n) {
    word sum = 0;
    for (size_t i = 0; i < n; i++) sum += sellumaq_judy1_test(set, keys[i]);
    return sum;
}

static word tests_at_once(const sellumaq_judy1 *set, const word *keys, size_t n) {
    word sum = 0;
    bool there[GROUP];
    for (size_t i = 0; i < n; i += GROUP) {
        size_t told = sellumaq_judy1_test_many(set, keys + i, n - i, there, GROUP);
        for (size_t at = 0; at < told; at++) sum += there[at];
    }
    return sum;
}

static void sets_by_key(const struct keys *keys, double *told) {
    sellumaq_judy1 set = {0};
    word found = 0;
    for (size_t i = 0; i < keys->n; i++) sellumaq_judy1_set(&set, keys->in[i]);
    ONCE(HIT, keys->n, found += tests_by_key(&set, keys->order, keys->n));
    ONCE(MISS, keys->n, found += tests_by_key(&set, keys->out, keys->n));
    ONCE(WALK, keys->distinct, found += set_by_key(&set));
    sellumaq_judy1_free(&set);
    ONCE(BULK, keys->distinct, EACH_SORTED(found += sellumaq_judy1_set(&set, k)));
    sellumaq_judy1_free(&set);
    sink += found;
}

static void sets_at_once(const struct keys *keys, double *told) {
    sellumaq_judy1 set = {0};
    word found = 0;
    for (size_t i = 0; i < keys->n; i++) sellumaq_judy1_set(&set, keys->in[i]);
    ONCE(HIT, keys->n, found += tests_at_once(&set, keys->order, keys->n));
    ONCE(MISS, keys->n, found += tests_at_once(&set, keys->out, keys->n));
    ONCE(WALK, keys->distinct, found += set_at_once(&set));
    sellumaq_judy1_free(&set);
    ONCE(BULK, keys->distinct, found += sellumaq_judy1_from_sorted(&set, keys->sorted, keys->distinct, &(size_t){0}));
    sellumaq_judy1_free(&set);
    sink += found;
}

static void sets_of_libjudy(const struct keys *keys, double *told) {
    Pvoid_t set = NULL;
    word found = 0, key = 0;
    for (size_t i = 0; i < keys->n; i++) Judy1Set(&set, keys->in[i], PJE0);
    EACH(HIT, found += (word)Judy1Test(set, keys->order[i], PJE0));
    EACH(MISS, found += (word)Judy1Test(set, keys->out[i], PJE0));
    ONCE(WALK, keys->distinct, for (int there = Judy1First(set, &key, PJE0); there; there = Judy1Next(set, &key, PJE0)) found += key);
    Judy1FreeArray(&set, PJE0);
    ONCE(BULK, keys->distinct, EACH_SORTED(found += (word)Judy1Set(&set, k, PJE0)));
    Judy1FreeArray(&set, PJE0);
    sink += found;
}

static const struct array ARRAYS[] = {
    {"judy1", "by-key", sets_by_key}, {"judy1", "at-once", sets_at_once}, {"judy1", "libjudy", sets_of_libjudy},
    {"judyl", "by-key", maps_by_key}, {"judyl", "at-once", maps_at_once}, {"judyl", "libjudy", maps_of_libjudy},
};

int main(int count, char **words) {
    struct program program = {ARRAYS, sizeof ARRAYS / sizeof *ARRAYS, USUAL_PATTERNS, name, make, drop};
    return measure_all(&program, count, words);
}
