/* Measures maps from strings and byte strings beside each other, in one run and on the same keys: Sellumaq's, by its own names and by HP's,
 * libJudy's (twice, which shows the run's noise) and, where they are linked, Rust's BTreeMap and HashMap of byte vectors. measure.h says what it prints.
 *
 *     strings [KEYS ..]       how many keys, 10000 and 1000000 where none is told
 *     strings --dictionary    100000 words of a made-up language alone
 *     strings --list          100000 words, or as many as there are, of the list that is installed, in /usr/share/dict/words
 *     strings --skewed [KEYS ..]    URLs of which a few hosts have most, with two kinds of ends
 */
#define _GNU_SOURCE
#include <Judy.h>

#include "measure.h"
#include "sellumaq.h"
#include "texts.h"

/* ---- measuring ---- */

/* Where a walk has come to, with room for every key and a zero byte. */
static struct { uint8_t bytes[1025]; size_t length; } at;

static void begin_at(const text *it) {
    memcpy(at.bytes, it->bytes, it->length + 1);
    at.length = it->length;
}

/* The keys in ascending order, each once, and the same as a page, of which an array is made at once. They are made where they are first asked for. */
static struct {
    size_t count, used;
    const text **keys;
    uint8_t *bytes;
    sellumaq_entry *entries;
} sorted;

static int by_bytes(const void *one, const void *other) {
    return strcmp((const char *)(*(const text *const *)one)->bytes, (const char *)(*(const text *const *)other)->bytes);
}

static void sort_keys(const struct keys *keys) {
    if (sorted.count) return;
    sorted.keys = room(keys->n, sizeof(text *));
    sorted.bytes = room(keys->n, LONGEST);
    sorted.entries = room(keys->n, sizeof(sellumaq_entry));
    for (size_t i = 0; i < keys->n; i++) sorted.keys[i] = &keys->in[i];
    qsort(sorted.keys, keys->n, sizeof(text *), by_bytes);
    for (size_t i = 0; i < keys->n; i++) {
        const text *key = sorted.keys[i];
        if (i && by_bytes(&sorted.keys[sorted.count - 1], &key) == 0) continue;
        sorted.keys[sorted.count] = key;
        sorted.entries[sorted.count++] = (sellumaq_entry){key->length, key->length};
        memcpy(sorted.bytes + sorted.used, key->bytes, key->length);
        sorted.used += key->length;
    }
}

static void drop_all(struct keys *keys) {
    free(sorted.keys);
    free(sorted.bytes);
    free(sorted.entries);
    memset(&sorted, 0, sizeof sorted);
    drop(keys);
}

/* An insert for each key in ascending order. */
#define EACH_SORTED(PUT) for (size_t i = 0; i < sorted.count; i++) { const text *k = sorted.keys[i]; PUT; }

/* One library's map: `A` is its variable, the other words are statements over it and a key `k`, or expressions; `NEXT_KEY` goes on to
 * the next key above `at`, and `BULK_PUT` makes the map anew of all keys. A library without order has false for `ORDERED`. */
#define MEASURE(NAME, A_TYPE, A_INIT, A_END, PUT, FIND, ORDERED, NEXT_KEY, TAKE, BULK_PUT) \
    static void NAME(const struct keys *keys, double *told) { \
        word found = 0; \
        size_t held = mallinfo2().uordblks; \
        A_TYPE a = A_INIT; \
        EACH(INSERT, const text *k = &keys->in[i]; PUT); \
        told[BYTES] = (double)(mallinfo2().uordblks - held) / keys->n; \
        EACH(HIT, const text *k = &keys->in[keys->order[i]]; found += FIND); \
        EACH(MISS, const text *k = &keys->out[i]; found += FIND); \
        if (ORDERED) { \
            begin_at(&(text){{0}, 0}); \
            word begin = now(); \
            while (NEXT_KEY) found += at.bytes[0]; \
            took(told, WALK, begin, keys->n); \
            EACH(NEXT, begin_at(&keys->out[i]); if (NEXT_KEY) found += at.bytes[0]); \
        } \
        EACH(DELETE, const text *k = &keys->in[keys->order[i]]; TAKE); \
        if (ORDERED) { \
            sort_keys(keys); \
            word begin = now(); \
            BULK_PUT; \
            took(told, BULK, begin, sorted.count); \
        } \
        A_END; \
        sink += found; \
    }

static void judysl_put(sellumaq_judysl *map, const text *key) {
    word *slot;
    if (sellumaq_judysl_ins(map, key->bytes, key->length, &slot) == SELLUMAQ_FOUND) *slot = key->length;
}

static word judysl_value(sellumaq_judysl *map, const text *key) {
    word value;
    return sellumaq_judysl_get(map, key->bytes, key->length, &value) ? value : 0;
}

static bool judysl_go_on(sellumaq_judysl *map) {
    word value;
    return sellumaq_judysl_next(map, at.bytes, sizeof at.bytes, &at.length, &value) == SELLUMAQ_FOUND;
}

static void judyhs_put(sellumaq_judyhs *map, const text *key) {
    word *slot;
    if (sellumaq_judyhs_ins(map, key->bytes, key->length, &slot) == SELLUMAQ_FOUND) *slot = key->length;
}

static word judyhs_value(sellumaq_judyhs *map, const text *key) {
    word value;
    return sellumaq_judyhs_get(map, key->bytes, key->length, &value) ? value : 0;
}

static word behind(PPvoid_t slot) { return slot ? *(word *)slot : 0; }

MEASURE(judysl_sellumaq, sellumaq_judysl, {0}, sellumaq_judysl_free(&a), judysl_put(&a, k), judysl_value(&a, k), true, judysl_go_on(&a),
        sellumaq_judysl_del(&a, k->bytes, k->length),
        found += sellumaq_judysl_from_sorted(&a, sorted.bytes, sorted.used, sorted.entries, sorted.count, &(size_t){0}))
MEASURE(judyhs_sellumaq, sellumaq_judyhs, {0}, sellumaq_judyhs_free(&a), judyhs_put(&a, k), judyhs_value(&a, k), false, false,
        sellumaq_judyhs_del(&a, k->bytes, k->length), (void)0)

/* By HP's names, one source for both libraries, whose names begin with `BY`. */
#define MEASURE_STRINGS_BY(BY, NAME) \
    MEASURE(NAME, Pvoid_t, NULL, BY##JudySLFreeArray(&a, PJE0), *(word *)BY##JudySLIns(&a, k->bytes, PJE0) = k->length, \
            behind(BY##JudySLGet(a, k->bytes, PJE0)), true, BY##JudySLNext(a, at.bytes, PJE0) != NULL, BY##JudySLDel(&a, k->bytes, PJE0), \
            EACH_SORTED(*(word *)BY##JudySLIns(&a, k->bytes, PJE0) = k->length))
#define MEASURE_BYTES_BY(BY, NAME) \
    MEASURE(NAME, Pvoid_t, NULL, BY##JudyHSFreeArray(&a, PJE0), *(word *)BY##JudyHSIns(&a, (void *)k->bytes, k->length, PJE0) = k->length, \
            behind(BY##JudyHSGet(a, (void *)k->bytes, k->length)), false, false, BY##JudyHSDel(&a, (void *)k->bytes, k->length, PJE0), (void)0)

RELINKED(JudySLFreeArray);
RELINKED(JudySLIns);
RELINKED(JudySLGet);
RELINKED(JudySLNext);
RELINKED(JudySLDel);
RELINKED(JudyHSFreeArray);
RELINKED(JudyHSIns);
RELINKED(JudyHSGet);
RELINKED(JudyHSDel);
MEASURE_STRINGS_BY(, judysl_libjudy)
MEASURE_STRINGS_BY(relinked_, judysl_relinked)
MEASURE_BYTES_BY(, judyhs_libjudy)
MEASURE_BYTES_BY(relinked_, judyhs_relinked)

#ifdef WITH_STD
#define DECLARE(MAP) \
    void *MAP##_new(void); \
    void MAP##_free(void *map); \
    void MAP##_insert(void *map, const uint8_t *key, size_t length, word value); \
    word MAP##_value(const void *map, const uint8_t *key, size_t length); \
    void MAP##_remove(void *map, const uint8_t *key, size_t length);
DECLARE(btree_text)
DECLARE(hash_text)
bool btree_text_next(const void *map, uint8_t *key, size_t *length);

MEASURE(judysl_std, void *, btree_text_new(), btree_text_free(a), btree_text_insert(a, k->bytes, k->length, k->length),
        btree_text_value(a, k->bytes, k->length), true, btree_text_next(a, at.bytes, &at.length), btree_text_remove(a, k->bytes, k->length),
        EACH_SORTED(btree_text_insert(a, k->bytes, k->length, k->length)))
MEASURE(judyhs_std, void *, hash_text_new(), hash_text_free(a), hash_text_insert(a, k->bytes, k->length, k->length),
        hash_text_value(a, k->bytes, k->length), false, false, hash_text_remove(a, k->bytes, k->length), (void)0)
#endif

static const struct array ARRAYS[] = {
    {"judysl", "sellumaq", judysl_sellumaq}, {"judysl", "libjudy", judysl_libjudy}, {"judysl", "again", judysl_libjudy},
    {"judyhs", "sellumaq", judyhs_sellumaq}, {"judyhs", "libjudy", judyhs_libjudy}, {"judyhs", "again", judyhs_libjudy},
    {"judysl", "relinked", judysl_relinked}, {"judyhs", "relinked", judyhs_relinked},
#ifdef WITH_STD
    {"judysl", "btreemap", judysl_std},      {"judyhs", "hashmap", judyhs_std},
#endif
};

/* ---- what is measured by itself ---- */

/* The first three are maps in order, by our own names and libJudy's. */
enum { IN_ORDER = 3, ALL = sizeof ARRAYS / sizeof *ARRAYS };

static size_t first_pattern;

static const char *name_from_first(size_t pattern) { return name(first_pattern + pattern); }

static struct keys *make_from_first(size_t n, size_t pattern) { return make(n, first_pattern + pattern); }

static int measure_from(size_t pattern, size_t patterns, size_t arrays, int count, char **words) {
    struct program program = {ARRAYS, arrays, patterns, name_from_first, make_from_first, drop_all};
    first_pattern = pattern;
    return measure_all(&program, count, words);
}

static int measure_list(const char *path) {
    char told[32];
    size_t count = read_list(path);
    if (count == 0) {
        fprintf(stderr, "no list of words here: %s\n", path);
        return 0;
    }
    snprintf(told, sizeof told, "%zu", count < 100000 ? count : 100000);
    return measure_from(LISTED_WORDS, 1, ALL, 2, (char *[]){"--list", told});
}

int main(int count, char **words) {
    const char *alone = count > 1 ? words[1] : "";
    if (strcmp(alone, "--dictionary") == 0) return measure_from(MADE_UP_WORDS, 1, ALL, 2, (char *[]){words[0], "100000"});
    if (strcmp(alone, "--list") == 0) return measure_list("/usr/share/dict/words");
    if (strcmp(alone, "--skewed") == 0) return measure_from(SKEWED_URLS, SKEWED_PATTERNS, IN_ORDER, count - 1, words + 1);
    return measure_from(0, USUAL_PATTERNS, ALL, count, words);
}
