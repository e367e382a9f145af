/* Measures single calls, beside libJudy's: the processor time that 999 of 1,000 take at most, and the longest; the least of several turns is told. What
 * the clock itself takes is in each. measure.h says what it prints, but that the operation is followed by `-99.9%` or `-most`.
 *
 *     latency [KEYS ..]        how many keys, 1000000 where none is told
 */
#define _GNU_SOURCE
#include <Judy.h>

#include "words.h"

/* ---- the time of each call ---- */

static uint32_t *times;

static int by_time(const void *one, const void *other) {
    uint32_t a = *(const uint32_t *)one, b = *(const uint32_t *)other;
    return (a > b) - (a < b);
}

/* What is told of an operation: of these, by their places in a list. */
enum { OFTEN, MOST, TOLD };

/* Keeps the less of what this turn's times tell and what was told before. */
static void keep(double *told, size_t n) {
    qsort(times, n, sizeof *times, by_time);
    double found[] = {times[n - 1 - n / 1000], times[n - 1]};
    for (int it = 0; it < TOLD; it++)
        if (told[it] < 0 || found[it] < told[it]) told[it] = found[it];
}

#define EACH_CALL(TOLD_OF, ...) \
    do { \
        for (size_t i = 0; i < keys->n; i++) { \
            word begin = now(); \
            __VA_ARGS__; \
            times[i] = (uint32_t)(now() - begin); \
        } \
        keep(TOLD_OF, keys->n); \
    } while (0)

enum { PUTS, GETS, NEXTS, TAKES, CALLS };

static const char *const CALLS_TOLD[] = {"insert", "hit", "next", "delete"};

#define MEASURE_CALLS(NAME, A_TYPE, A_INIT, PUT, FIND, NEXT_KEY, TAKE) \
    static void NAME(const struct keys *keys, double (*told)[TOLD]) { \
        A_TYPE a = A_INIT; \
        word found = 0; \
        EACH_CALL(told[PUTS], word k = keys->in[i]; PUT); \
        EACH_CALL(told[GETS], word k = keys->order[i]; found += FIND); \
        EACH_CALL(told[NEXTS], word k = keys->order[i]; if (NEXT_KEY) found += k); \
        EACH_CALL(told[TAKES], word k = keys->order[i]; found += TAKE); \
        sink += found; \
    }

static word value_of(const sellumaq_judyl *map, word key) {
    word value = 0;
    return sellumaq_judyl_get(map, key, &value) ? value : 0;
}

static word behind(PPvoid_t slot) { return slot ? *(word *)slot : 0; }

MEASURE_CALLS(our_set, sellumaq_judy1, {0}, sellumaq_judy1_set(&a, k), sellumaq_judy1_test(&a, k), sellumaq_judy1_next(&a, k, &k), sellumaq_judy1_unset(&a, k))
MEASURE_CALLS(our_map, sellumaq_judyl, {0}, sellumaq_judyl_put(&a, k, k), value_of(&a, k), sellumaq_judyl_next(&a, k, &k), sellumaq_judyl_del(&a, k))
MEASURE_CALLS(libjudys_set, Pvoid_t, NULL, Judy1Set(&a, k, PJE0), (word)Judy1Test(a, k, PJE0), Judy1Next(a, &k, PJE0), (word)Judy1Unset(&a, k, PJE0))
MEASURE_CALLS(libjudys_map, Pvoid_t, NULL, *(word *)JudyLIns(&a, k, PJE0) = k, behind(JudyLGet(a, k, PJE0)), JudyLNext(a, (Word_t *)&k, PJE0) != NULL,
              (word)JudyLDel(&a, k, PJE0))

static const struct {
    const char *kind, *library;
    void (*measure)(const struct keys *keys, double (*told)[TOLD]);
} MEASURED[] = {{"judy1", "sellumaq", our_set}, {"judy1", "libjudy", libjudys_set}, {"judyl", "sellumaq", our_map}, {"judyl", "libjudy", libjudys_map}};

/* How many times each is measured, and the patterns: runs, words of 64 bits, and of 32. */
enum { TURNS = 3, PATTERNS_TOLD = 3 };

static void measure(size_t at, const struct keys *keys, const char *pattern) {
    static const char *const suffixes[] = {"99.9%", "most"};
    double told[CALLS][TOLD];
    for (int call = 0; call < CALLS; call++) told[call][OFTEN] = told[call][MOST] = -1;
    for (int turn = 0; turn < TURNS; turn++) MEASURED[at].measure(keys, told);
    for (int call = 0; call < CALLS; call++)
        for (int it = 0; it < TOLD; it++)
            printf("%s %s %s %zu %s-%s %.0f\n", MEASURED[at].kind, MEASURED[at].library, pattern, keys->n, CALLS_TOLD[call], suffixes[it], told[call][it]);
    fflush(stdout);
}

int main(int count, char **words) {
    for (int at = 1; at < (count > 1 ? count : 2); at++) {
        size_t n = count > 1 ? strtoull(words[at], NULL, 10) : 1000000;
        if (n == 0) return 2;
        times = room(n, sizeof *times);
        for (size_t pattern = RUNS; pattern < RUNS + PATTERNS_TOLD; pattern++) {
            struct keys *keys = make(n, pattern);
            for (size_t it = 0; it < sizeof MEASURED / sizeof *MEASURED; it++) measure(it, keys, name(pattern));
            drop(keys);
        }
        free(times);
    }
    return 0;
}
