/* Measures the memory that a map from strings or byte strings keeps which lost most of its keys: random ones of 8 to 40 bytes, of which one in a
 * hundred stays. `bytes` is by a key that is there. measure.h says what it prints.
 *
 *     kept [KEYS ..]         how many keys are put in, 10000 and 1000000 where none is told
 */
#define _GNU_SOURCE
#include "measure.h"
#include "sellumaq.h"

/* What was done when the bytes are counted: all keys are put in; all but one in a hundred are deleted; those that stay are copied to a new array,
 * and the old one is freed. */
enum { PUT_IN, FEW_LEFT, COPIED, STEPS };

enum { LONGEST = 40, ONE_IN = 100 };
typedef struct { uint8_t bytes[LONGEST]; size_t length; } text;

struct keys {
    size_t n, step;
    text *in;
};

static const char *name(size_t step) {
    static const char *const names[] = {"put-in", "few-left", "copied"};
    return names[step];
}

static struct keys *make(size_t n, size_t step) {
    struct keys *keys = room(1, sizeof *keys);
    *keys = (struct keys){n, step, room(n, sizeof(text))};
    seed = 1;
    for (size_t i = 0; i < n; i++) {
        text *it = &keys->in[i];
        for (size_t length = 8 + any() % 33; it->length < length;) it->bytes[it->length++] = 1 + any() % 255;
    }
    return keys;
}

static void drop(struct keys *keys) {
    free(keys->in);
    free(keys);
}

static bool stays(size_t i) { return i % ONE_IN == 0; }

/* One kind's array, by its type's name: all steps up to the keys' own, and the bytes then. */
#define MEASURE(KIND) \
    static void KIND(const struct keys *keys, double *told) { \
        size_t there = keys->step == PUT_IN ? keys->n : (keys->n + ONE_IN - 1) / ONE_IN; \
        size_t held = mallinfo2().uordblks; \
        sellumaq_##KIND map = {0}; \
        EACH(INSERT, sellumaq_##KIND##_put(&map, keys->in[i].bytes, keys->in[i].length, 1)); \
        if (keys->step != PUT_IN) EACH(DELETE, if (!stays(i)) sellumaq_##KIND##_del(&map, keys->in[i].bytes, keys->in[i].length)); \
        if (keys->step == COPIED) { \
            sellumaq_##KIND copy = {0}; \
            EACH(INSERT, if (stays(i)) sellumaq_##KIND##_put(&copy, keys->in[i].bytes, keys->in[i].length, 1)); \
            sellumaq_##KIND##_free(&map); \
            map = copy; \
        } \
        told[BYTES] = (double)(mallinfo2().uordblks - held) / there; \
        sellumaq_##KIND##_free(&map); \
    }

MEASURE(judysl)
MEASURE(judyhs)

static const struct array ARRAYS[] = {{"judysl", "sellumaq", judysl}, {"judyhs", "sellumaq", judyhs}};

int main(int count, char **words) {
    struct program program = {ARRAYS, sizeof ARRAYS / sizeof *ARRAYS, STEPS, name, make, drop};
    return measure_all(&program, count, words);
}
