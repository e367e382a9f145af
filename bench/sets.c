/* Measures what two sets of words have together, sets made of them, a range that goes, parts, copies, and lists in any order: Sellumaq's sets and, where
 * they are linked, CRoaring's Roaring64Map and Rust's BTreeSet; and copies of Sellumaq's maps and Rust's. Half of the keys of each set are the other's
 * too. measure.h says what it prints, by the key of a set:
 *
 *     rank    how many keys both have
 *     insert  the union        hit   the intersection
 *     miss    the difference   next  the symmetric difference
 *     delete  half of the keys taken out, by a range
 *     select  the upper half of the keys split off
 *     walk    a copy           copy  a copy of a map of the keys
 *     bulk    a set made of a list in no order
 *
 *     sets [KEYS ..]        how many keys a set has, 10000 and 1000000 where none is told
 */
#define _GNU_SOURCE
#include "measure.h"
#include "sellumaq.h"

/* A range of more words than this isn't taken out of a Roaring64Map, which needs a set of its own for it. */
#define MOST_WORDS ((word)1 << 33)

static word spread(size_t i, unsigned bits) {
    word z = (i + 1) * 0x9e3779b97f4a7c15u;
    z = (z ^ (z >> 30)) * 0xbf58476d1ce4e5b9u;
    return (z ^ (z >> 31)) >> (64 - bits);
}

static word dense(size_t i) { return i; }
static word runs(size_t i) { return i / 500 * 100003 + i % 500; }
static word random26(size_t i) { return spread(i, 26); }
static word random32(size_t i) { return spread(i, 32); }
static word random64(size_t i) { return spread(i, 64); }

static const struct {
    const char *name;
    word (*key)(size_t);
} PATTERNS[] = {{"dense", dense}, {"runs-of-500", runs}, {"random-26", random26}, {"random-32", random32}, {"random-64", random64}};

/* Two sets, each as a list that ascends; the one also in no order; a range of the one, from the key that a quarter is below to the one that a quarter is
 * above; and the key that half is below. */
struct keys {
    size_t n, counts[2];
    word *sorted[2], *turned, from, middle, to;
};

static const char *name(size_t pattern) { return PATTERNS[pattern].name; }

static int by_word(const void *one, const void *other) {
    word a = *(const word *)one, b = *(const word *)other;
    return (a > b) - (a < b);
}

static size_t sort(word *keys, size_t n) {
    size_t distinct = 0;
    qsort(keys, n, sizeof(word), by_word);
    for (size_t i = 0; i < n; i++)
        if (i == 0 || keys[i] != keys[distinct - 1]) keys[distinct++] = keys[i];
    return distinct;
}

/* Of each two keys of a pattern both sets have the first; the second is one set's alone, by turns. */
static struct keys *make(size_t n, size_t pattern) {
    struct keys *keys = room(1, sizeof *keys);
    keys->n = n;
    keys->turned = room(n, sizeof(word));
    for (int at = 0; at < 2; at++) {
        keys->sorted[at] = room(n, sizeof(word));
        for (size_t i = 0; i < n; i++) {
            size_t pair = i / 2;
            keys->sorted[at][i] = PATTERNS[pattern].key(i % 2 ? 3 * pair + 1 + (size_t)at : 3 * pair);
        }
    }
    memcpy(keys->turned, keys->sorted[0], n * sizeof(word));
    seed = pattern + 1;
    for (size_t i = n; i > 1; i--) {
        size_t j = any() % i;
        word key = keys->turned[i - 1];
        keys->turned[i - 1] = keys->turned[j];
        keys->turned[j] = key;
    }
    for (int at = 0; at < 2; at++) keys->counts[at] = sort(keys->sorted[at], n);
    keys->from = keys->sorted[0][keys->counts[0] / 4];
    keys->middle = keys->sorted[0][keys->counts[0] / 2];
    keys->to = keys->sorted[0][keys->counts[0] * 3 / 4];
    return keys;
}

static void drop(struct keys *keys) {
    for (int at = 0; at < 2; at++) free(keys->sorted[at]);
    free(keys->turned);
    free(keys);
}

/* Times an act, whose memory goes behind it. */
#define TIMED(OPERATION, ACT, END) \
    do { \
        word begin = now(); \
        ACT; \
        took(told, OPERATION, begin, keys->n); \
        END; \
    } while (0)

/* A library's maps: how one is made of a list of keys that ascends, copied, and how it goes. */
#define MEASURE_MAP(NAME, TYPE, OF, FREE, COPIED) \
    static void NAME(const struct keys *keys, double *told) { \
        TYPE map = OF(keys->sorted[0], keys->counts[0]); \
        TYPE made; \
        TIMED(COPY, made = COPIED(map), FREE(made)); \
        FREE(map); \
    }

/* One library's sets: how one is made of a list that ascends, how two make a third, and how each goes; and what measures its maps. */
#define MEASURE(NAME, TYPE, OF, FREE, LEN, COMMON, UNION, INTERSECTION, DIFFERENCE, SYMMETRIC, COPIED, RANGE, SPLIT, UNSORTED, MAP) \
    static void NAME(const struct keys *keys, double *told) { \
        TYPE a = OF(keys->sorted[0], keys->counts[0]); \
        TYPE b = OF(keys->sorted[1], keys->counts[1]); \
        TYPE made; \
        word found = 0; \
        TIMED(RANK, found += COMMON(a, b), ); \
        TIMED(INSERT, made = UNION(a, b), (found += LEN(made), FREE(made))); \
        TIMED(HIT, made = INTERSECTION(a, b), (found += LEN(made), FREE(made))); \
        TIMED(MISS, made = DIFFERENCE(a, b), (found += LEN(made), FREE(made))); \
        TIMED(NEXT, made = SYMMETRIC(a, b), (found += LEN(made), FREE(made))); \
        TIMED(BULK, made = UNSORTED(keys->turned, keys->n), (found += LEN(made), FREE(made))); \
        TIMED(WALK, made = COPIED(a), ); \
        if (SPLIT) { \
            TYPE upper; \
            TIMED(SELECT, upper = (SPLIT)(made, keys->middle), (found += LEN(upper), FREE(upper), FREE(made))); \
            made = COPIED(a); \
        } \
        if (RANGE) TIMED(DELETE, (RANGE)(made, keys->from, keys->to), found += LEN(made)); \
        FREE(made); \
        FREE(a); \
        FREE(b); \
        MAP(keys, told); \
        sink += found; \
    }

/* ---- Sellumaq ---- */

static sellumaq_judy1 *judy1_of(const word *keys, size_t n) {
    sellumaq_judy1 *made = room(1, sizeof *made);
    size_t place;
    sellumaq_judy1_from_sorted(made, keys, n, &place);
    return made;
}

static sellumaq_judy1 *judy1_of_list(const word *keys, size_t n) {
    sellumaq_judy1 *made = room(1, sizeof *made);
    sellumaq_judy1_from_unsorted(made, keys, n);
    return made;
}

static sellumaq_judy1 *judy1_copy(const sellumaq_judy1 *set) {
    sellumaq_judy1 *made = room(1, sizeof *made);
    sellumaq_judy1_copy(made, set);
    return made;
}

static void judy1_free(sellumaq_judy1 *set) {
    sellumaq_judy1_free(set);
    free(set);
}

#define OF_TWO(NAME) \
    static sellumaq_judy1 *judy1_##NAME(const sellumaq_judy1 *one, const sellumaq_judy1 *other) { \
        sellumaq_judy1 *made = room(1, sizeof *made); \
        sellumaq_judy1_##NAME(made, one, other); \
        return made; \
    }
OF_TWO(union)
OF_TWO(intersection)
OF_TWO(difference)
OF_TWO(symmetric_difference)

static void judy1_remove_range(sellumaq_judy1 *set, word from, word to) { sellumaq_judy1_remove_range(set, from, to); }

static sellumaq_judy1 *judy1_split_off(sellumaq_judy1 *set, word at) {
    sellumaq_judy1 *made = room(1, sizeof *made);
    sellumaq_judy1_split_off(made, set, at);
    return made;
}

static sellumaq_judyl *judyl_of(const word *keys, size_t n) {
    sellumaq_judyl *made = room(1, sizeof *made);
    sellumaq_pair *pairs = room(n, sizeof *pairs);
    size_t place;
    for (size_t i = 0; i < n; i++) pairs[i] = (sellumaq_pair){keys[i], i};
    sellumaq_judyl_from_sorted(made, pairs, n, &place);
    free(pairs);
    return made;
}

static sellumaq_judyl *judyl_copy(const sellumaq_judyl *map) {
    sellumaq_judyl *made = room(1, sizeof *made);
    sellumaq_judyl_copy(made, map);
    return made;
}

static void judyl_free(sellumaq_judyl *map) {
    sellumaq_judyl_free(map);
    free(map);
}

MEASURE_MAP(sellumaq_map, sellumaq_judyl *, judyl_of, judyl_free, judyl_copy)
MEASURE(sellumaq, sellumaq_judy1 *, judy1_of, judy1_free, sellumaq_judy1_len, sellumaq_judy1_intersection_count, judy1_union, judy1_intersection,
        judy1_difference, judy1_symmetric_difference, judy1_copy, judy1_remove_range, judy1_split_off, judy1_of_list, sellumaq_map)

/* ---- others' sets, by calls of one form ---- */

#define OTHERS(PREFIX) \
    void *PREFIX##_of(const word *keys, size_t count); \
    void PREFIX##_free(void *set); \
    void *PREFIX##_copy(const void *set); \
    word PREFIX##_common(const void *one, const void *other); \
    void *PREFIX##_union(const void *one, const void *other); \
    void *PREFIX##_intersection(const void *one, const void *other); \
    void *PREFIX##_difference(const void *one, const void *other); \
    void *PREFIX##_symmetric_difference(const void *one, const void *other); \
    void PREFIX##_remove_range(void *set, word from, word to); \
    word PREFIX##_len(const void *set)

#define MEASURE_OTHERS(NAME, PREFIX, RANGE, SPLIT, MAP) \
    MEASURE(NAME, void *, PREFIX##_of, PREFIX##_free, PREFIX##_len, PREFIX##_common, PREFIX##_union, PREFIX##_intersection, PREFIX##_difference, \
            PREFIX##_symmetric_difference, PREFIX##_copy, RANGE, SPLIT, PREFIX##_of, MAP)

#ifdef WITH_ROARING
OTHERS(roaring_set);

/* CRoaring has no call that splits a set, and no maps. */
static void *(*const no_split)(void *set, word at) = NULL;
static void no_map(const struct keys *keys, double *told) { (void)keys, (void)told; }

MEASURE_OTHERS(croaring, roaring_set, keys->to - keys->from < MOST_WORDS ? roaring_set_remove_range : NULL, no_split, no_map)
#endif

#ifdef WITH_STD
OTHERS(btree_set);
void *btree_set_split_off(void *set, word at);
void *btree_map_of(const word *keys, size_t count);
void *btree_map_copy(const void *map);
void btree_map_free(void *map);

MEASURE_MAP(btreemap_map, void *, btree_map_of, btree_map_free, btree_map_copy)
MEASURE_OTHERS(btreemap, btree_set, btree_set_remove_range, btree_set_split_off, btreemap_map)
#endif

static const struct array ARRAYS[] = {
    {"judy1", "sellumaq", sellumaq},
#ifdef WITH_ROARING
    {"judy1", "croaring", croaring},
#endif
#ifdef WITH_STD
    {"judy1", "btreemap", btreemap},
#endif
};

int main(int count, char **words) {
    struct program program = {ARRAYS, sizeof ARRAYS / sizeof *ARRAYS, sizeof PATTERNS / sizeof *PATTERNS, name, make, drop};
    return measure_all(&program, count, words);
}
