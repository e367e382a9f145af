/* Measures arrays of words beside each other, in one run and on the same keys: Sellumaq's, by its own names and by HP's, libJudy's (twice, which
 * shows the run's noise) and, where it is linked, Rust's BTreeMap. measure.h says what it prints.
 *
 *     arrays [KEYS ..]              how many keys, 10000 and 1000000 where none is told
 *     arrays --sparse [KEYS ..]     sets alone, of pointers and of one word in 4 to one in 100000
 *     arrays --far                  look-ups alone, among ten million keys
 */
#define _GNU_SOURCE
#include <Judy.h>

#include "words.h"

/* ---- measuring ---- */

/* From so many keys on ranks and n-th keys are measured in the first turn alone: one of libJudy's takes microseconds. */
enum { MANY = 100000 };

/* From so many on look-ups alone are measured. */
enum { FAR = 10000000 };

/* One library's array: `A` is its variable, the other words are statements over it and a key `k`, or expressions. A library
 * without rank and select has 0 for `ORDERED`. `BULK_PUT` puts all keys in by ascending order. */
#define MEASURE(NAME, A_TYPE, A_INIT, A_END, PUT, FIND, NEXT_KEY, ORDERED, COUNT_BELOW, NTH, TAKE, BULK_PUT) \
    static void NAME(const struct keys *keys, double *told) { \
        word found = 0; \
        size_t held = mallinfo2().uordblks; \
        A_TYPE a = A_INIT; \
        EACH(INSERT, word k = keys->in[i]; PUT); \
        told[BYTES] = (double)(mallinfo2().uordblks - held) / keys->n; \
        EACH(HIT, word k = keys->order[i]; found += FIND); \
        EACH(MISS, word k = keys->out[i]; found += FIND); \
        word begin = now(); \
        for (word k = 0; NEXT_KEY;) found += k; \
        took(told, WALK, begin, keys->n); \
        EACH(NEXT, word k = keys->order[i] ^ i % 16; if (NEXT_KEY) found += k); \
        if (keys->n >= FAR) { \
            A_END; \
            sink += found; \
            return; \
        } \
        if (ORDERED && (keys->n < MANY || told[RANK] < 0)) { \
            EACH(RANK, word k = keys->order[i]; (void)k; found += COUNT_BELOW); \
            EACH(SELECT, word k = keys->order[i] % keys->n + 1; if (NTH) found += k); \
        } \
        EACH(DELETE, word k = keys->order[i]; TAKE); \
        begin = now(); \
        BULK_PUT; \
        took(told, BULK, begin, keys->distinct); \
        A_END; \
        sink += found; \
    }

MEASURE(judy1_sellumaq, sellumaq_judy1, {0}, sellumaq_judy1_free(&a), sellumaq_judy1_set(&a, k), sellumaq_judy1_test(&a, k),
        sellumaq_judy1_next(&a, k, &k), true, sellumaq_judy1_count(&a, 0, k), sellumaq_judy1_by_count(&a, k, &k), sellumaq_judy1_unset(&a, k),
        sink += sellumaq_judy1_from_sorted(&a, keys->sorted, keys->distinct, &(size_t){0}))

/* By HP's names, one source for both libraries, whose names begin with `BY`. */
#define MEASURE_SET_BY(BY, NAME) \
    MEASURE(NAME, Pvoid_t, NULL, BY##Judy1FreeArray(&a, PJE0), BY##Judy1Set(&a, k, PJE0), BY##Judy1Test(a, k, PJE0), \
            BY##Judy1Next(a, &k, PJE0), true, BY##Judy1Count(a, 0, k, PJE0), BY##Judy1ByCount(a, k, &k, PJE0), \
            BY##Judy1Unset(&a, k, PJE0), EACH_SORTED(BY##Judy1Set(&a, k, PJE0)))

RELINKED(Judy1FreeArray);
RELINKED(Judy1Set);
RELINKED(Judy1Test);
RELINKED(Judy1Next);
RELINKED(Judy1Count);
RELINKED(Judy1ByCount);
RELINKED(Judy1Unset);
MEASURE_SET_BY(, judy1_libjudy)
MEASURE_SET_BY(relinked_, judy1_relinked)

static word sellumaq_value(sellumaq_judyl *map, word key) {
    word value = 0;
    return sellumaq_judyl_get(map, key, &value) ? value : 0;
}

/* The next key of a map, whose value is read too and added to a sum. */
static bool sellumaq_next_entry(sellumaq_judyl *map, word *key, word *sum) {
    word value = 0;
    if (!sellumaq_judyl_next_entry(map, *key, key, &value)) return false;
    *sum += value;
    return true;
}

MEASURE(judyl_sellumaq, sellumaq_judyl, {0}, sellumaq_judyl_free(&a), (void)sellumaq_judyl_put(&a, k, k), sellumaq_value(&a, k),
        sellumaq_next_entry(&a, &k, &found), true, sellumaq_judyl_count(&a, 0, k), sellumaq_judyl_by_count(&a, k, &k), sellumaq_judyl_del(&a, k),
        sink += sellumaq_judyl_from_sorted(&a, keys->pairs, keys->distinct, &(size_t){0}))

static word behind(PPvoid_t slot) { return slot ? *(word *)slot : 0; }

/* The same of a slot that is the next key's, whose value is added to a sum. */
static bool sums(PPvoid_t slot, word *sum) {
    if (slot) *sum += *(word *)slot;
    return slot != NULL;
}

#define MEASURE_MAP_BY(BY, NAME) \
    MEASURE(NAME, Pvoid_t, NULL, BY##JudyLFreeArray(&a, PJE0), *(word *)BY##JudyLIns(&a, k, PJE0) = k, behind(BY##JudyLGet(a, k, PJE0)), \
            sums(BY##JudyLNext(a, (Word_t *)&k, PJE0), &found), true, BY##JudyLCount(a, 0, k, PJE0), \
            BY##JudyLByCount(a, k, (Word_t *)&k, PJE0) != NULL, BY##JudyLDel(&a, k, PJE0), EACH_SORTED(*(word *)BY##JudyLIns(&a, k, PJE0) = k))

RELINKED(JudyLFreeArray);
RELINKED(JudyLIns);
RELINKED(JudyLGet);
RELINKED(JudyLNext);
RELINKED(JudyLCount);
RELINKED(JudyLByCount);
RELINKED(JudyLDel);
MEASURE_MAP_BY(, judyl_libjudy)
MEASURE_MAP_BY(relinked_, judyl_relinked)

#ifdef WITH_STD
void *btree_set_new(void);
void btree_set_free(void *set);
void btree_set_insert(void *set, word key);
bool btree_set_has(const void *set, word key);
bool btree_set_next(const void *set, word from, word *key);
void btree_set_remove(void *set, word key);
void *btree_map_new(void);
void btree_map_free(void *map);
void btree_map_insert(void *map, word key, word value);
word btree_map_value(const void *map, word key);
bool btree_map_next(const void *map, word from, word *key, word *value);
void btree_map_remove(void *map, word key);

MEASURE(judy1_btree, void *, btree_set_new(), btree_set_free(a), btree_set_insert(a, k), btree_set_has(a, k), btree_set_next(a, k, &k),
        false, 0, 0, btree_set_remove(a, k), EACH_SORTED(btree_set_insert(a, k)))

static bool btree_next_entry(const void *map, word *key, word *sum) {
    word value = 0;
    if (!btree_map_next(map, *key, key, &value)) return false;
    *sum += value;
    return true;
}

MEASURE(judyl_btree, void *, btree_map_new(), btree_map_free(a), btree_map_insert(a, k, k), btree_map_value(a, k),
        btree_next_entry(a, &k, &found), false, 0, 0, btree_map_remove(a, k), EACH_SORTED(btree_map_insert(a, k, k)))
#endif

static const struct array ARRAYS[] = {
    {"judy1", "sellumaq", judy1_sellumaq}, {"judy1", "libjudy", judy1_libjudy}, {"judy1", "again", judy1_libjudy},
    {"judyl", "sellumaq", judyl_sellumaq}, {"judyl", "libjudy", judyl_libjudy}, {"judyl", "again", judyl_libjudy},
    {"judy1", "relinked", judy1_relinked}, {"judyl", "relinked", judyl_relinked},
#ifdef WITH_STD
    {"judy1", "btreemap", judy1_btree},    {"judyl", "btreemap", judyl_btree},
#endif
};

/* ---- what is measured by itself ---- */

/* The first three are sets, and the first six are by our own names, and libJudy's. */
enum { SETS = 3, BY_OWN_NAMES = 6 };

static const char *sparse_name(size_t pattern) { return name(USUAL_PATTERNS + pattern); }
static struct keys *make_sparse(size_t n, size_t pattern) { return make(n, USUAL_PATTERNS + pattern); }

/* Runs, and words far apart. */
static const char *far_name(size_t pattern) { return name(RUNS + pattern); }
static struct keys *make_far(size_t n, size_t pattern) { return make(n, RUNS + pattern); }

int main(int count, char **words) {
    struct program program = {ARRAYS, sizeof ARRAYS / sizeof *ARRAYS, USUAL_PATTERNS, name, make, drop};
    struct program of_sparse = {ARRAYS, SETS, SPARSE_PATTERNS, sparse_name, make_sparse, drop};
    struct program of_far = {ARRAYS, BY_OWN_NAMES, 2, far_name, make_far, drop};
    if (count > 1 && strcmp(words[1], "--sparse") == 0) return measure_all(&of_sparse, count - 1, words + 1);
    if (count > 1 && strcmp(words[1], "--far") == 0) return measure_all(&of_far, 2, (char *[]){words[0], "10000000"});
    return measure_all(&program, count, words);
}
