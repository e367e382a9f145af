/* Measures walks over all strings of a map, from the first one up: by pages of 64 keys, as the iterators of Rust and Python go, by our own call of the next
 * key, and by libJudy's (twice, which shows the run's noise). measure.h says what it prints.
 *
 *     pages [KEYS ..]   how many keys, 10000 and 1000000 where none is told
 */
#define _GNU_SOURCE
#include <Judy.h>

#include "measure.h"
#include "sellumaq.h"
#include "texts.h"

/* How many keys are walked over by one call, and more bytes than each has. */
enum { PAGE = 64, ROOM = 1024 };

/* What a walk has seen: the first byte of each key, and each value. */
static word walk_by_page(const sellumaq_judysl *map) {
    static uint8_t bytes[PAGE * ROOM], from[ROOM];
    sellumaq_entry entries[PAGE];
    word sum = 0;
    size_t length = 0, told = sellumaq_judysl_walk(map, from, 0, true, bytes, sizeof bytes, entries, PAGE);
    while (told) {
        const uint8_t *key = bytes;
        for (size_t at = 0; at < told; at++) {
            length = entries[at].length;
            sum += key[0] + entries[at].value;
            key += length;
        }
        memcpy(from, key - length, length);
        told = sellumaq_judysl_walk(map, from, length, false, bytes, sizeof bytes, entries, PAGE);
    }
    return sum;
}

static word walk_by_key(const sellumaq_judysl *map) {
    uint8_t key[ROOM];
    size_t length = 0;
    word value, sum = 0;
    uint32_t told = sellumaq_judysl_first(map, key, sizeof key, &length, &value);
    while (told == SELLUMAQ_FOUND) {
        sum += key[0] + value;
        told = sellumaq_judysl_next(map, key, sizeof key, &length, &value);
    }
    return sum;
}

static word walk_libjudy(Pcvoid_t map) {
    uint8_t key[ROOM + 1] = {0};
    word sum = 0;
    for (word *slot = (word *)JudySLFirst(map, key, PJE0); slot; slot = (word *)JudySLNext(map, key, PJE0)) sum += key[0] + *slot;
    return sum;
}

/* One library's map, which `PUT` fills with each key `k`. */
#define MEASURE(NAME, A_TYPE, A_INIT, A_END, PUT, WALKED) \
    static void NAME(const struct keys *keys, double *told) { \
        A_TYPE a = A_INIT; \
        for (size_t i = 0; i < keys->n; i++) { const text *k = &keys->in[i]; PUT; } \
        word begin = now(), found = WALKED; \
        took(told, WALK, begin, keys->n); \
        A_END; \
        sink += found; \
    }

MEASURE(by_page, sellumaq_judysl, {0}, sellumaq_judysl_free(&a), sellumaq_judysl_put(&a, k->bytes, k->length, k->length), walk_by_page(&a))
MEASURE(by_key, sellumaq_judysl, {0}, sellumaq_judysl_free(&a), sellumaq_judysl_put(&a, k->bytes, k->length, k->length), walk_by_key(&a))
MEASURE(libjudy, Pvoid_t, NULL, JudySLFreeArray(&a, PJE0), *(word *)JudySLIns(&a, k->bytes, PJE0) = k->length, walk_libjudy(a))

static const struct array ARRAYS[] = {
    {"judysl", "at-once", by_page}, {"judysl", "by-key", by_key}, {"judysl", "libjudy", libjudy}, {"judysl", "again", libjudy},
};

int main(int count, char **words) {
    struct program program = {ARRAYS, sizeof ARRAYS / sizeof *ARRAYS, USUAL_PATTERNS, name, make, drop};
    return measure_all(&program, count, words);
}
