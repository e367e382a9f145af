/* Measures the four searches for a word that is no key, in arrays of words of which every second one is a key, by chance: from each of as many
 * words as there are keys. `hit` is the first from a word on, `next` the next above it, `rank` the last up to it, `select` the one below it.
 *
 *     empties [KEYS ..]        how many words are keys, in the mean: 10,000, 250,000 and 1,000,000 where none is told
 */
#define _GNU_SOURCE
#include <Judy.h>

#include "measure.h"
#include "sellumaq.h"

/* The words below 2n that are keys, and the words to search from. */
struct keys {
    size_t n, held;
    word *in, *from;
};

static const char *name(size_t pattern) {
    (void)pattern;
    return "half-dense";
}

static struct keys *make(size_t n, size_t pattern) {
    struct keys *keys = room(1, sizeof *keys);
    *keys = (struct keys){n, 0, room(2 * n, sizeof(word)), room(n, sizeof(word))};
    seed = pattern + 1;
    for (word k = 0; k < 2 * n; k++)
        if (any() % 2) keys->in[keys->held++] = k;
    for (size_t i = 0; i < n; i++) keys->from[i] = any() % (2 * n);
    return keys;
}

static void drop(struct keys *keys) {
    free(keys->in);
    free(keys->from);
    free(keys);
}

#define NO_SET (sellumaq_judy1){0}
#define NO_MAP (sellumaq_judyl){0}

/* One library's searches: `A` is its array, the other words are statements over it and a word `k`, which a search replaces. */
#define MEASURE(NAME, A_TYPE, A_INIT, A_END, PUT, FIRST, NEXT_ONE, LAST, PREV) \
    static void NAME(const struct keys *keys, double *told) { \
        A_TYPE a = A_INIT; \
        for (size_t i = 0; i < keys->held; i++) { word k = keys->in[i]; PUT; } \
        word found = 0; \
        EACH(HIT, word k = keys->from[i]; FIRST; found += k); \
        EACH(NEXT, word k = keys->from[i]; NEXT_ONE; found += k); \
        EACH(RANK, word k = keys->from[i]; LAST; found += k); \
        EACH(SELECT, word k = keys->from[i]; PREV; found += k); \
        sink += found; \
        A_END; \
    }

#define SELLUMAQ(KIND, INIT, PUT) \
    MEASURE(KIND##_sellumaq, sellumaq_##KIND, INIT, sellumaq_##KIND##_free(&a), PUT, (void)sellumaq_##KIND##_first_empty(&a, k, &k), \
            (void)sellumaq_##KIND##_next_empty(&a, k, &k), (void)sellumaq_##KIND##_last_empty(&a, k, &k), (void)sellumaq_##KIND##_prev_empty(&a, k, &k))
SELLUMAQ(judy1, NO_SET, sellumaq_judy1_set(&a, k))
SELLUMAQ(judyl, NO_MAP, (void)sellumaq_judyl_put(&a, k, k))

#define LIBJUDY(NAME, KIND, PUT) \
    MEASURE(NAME, Pvoid_t, NULL, KIND##FreeArray(&a, PJE0), PUT, KIND##FirstEmpty(a, &k, PJE0), KIND##NextEmpty(a, &k, PJE0), KIND##LastEmpty(a, &k, PJE0), \
            KIND##PrevEmpty(a, &k, PJE0))
LIBJUDY(judy1_libjudy, Judy1, Judy1Set(&a, k, PJE0))
LIBJUDY(judyl_libjudy, JudyL, *(word *)JudyLIns(&a, k, PJE0) = k)

static const struct array ARRAYS[] = {
    {"judy1", "sellumaq", judy1_sellumaq}, {"judy1", "libjudy", judy1_libjudy}, {"judy1", "again", judy1_libjudy},
    {"judyl", "sellumaq", judyl_sellumaq}, {"judyl", "libjudy", judyl_libjudy}, {"judyl", "again", judyl_libjudy},
};

int main(int count, char **words) {
    static char *usual[] = {"empties", "10000", "250000", "1000000"};
    struct program program = {ARRAYS, sizeof ARRAYS / sizeof *ARRAYS, 1, name, make, drop};
    return count > 1 ? measure_all(&program, count, words) : measure_all(&program, sizeof usual / sizeof *usual, usual);
}
