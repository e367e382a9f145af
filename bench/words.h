/* The keys of words that are measured: patterns of them, and lists in several orders. */
#include "measure.h"
#include "sellumaq.h"

static void shuffle(word *keys, size_t n) {
    for (size_t i = n; i > 1; i--) {
        size_t j = any() % i;
        word key = keys[i - 1];
        keys[i - 1] = keys[j];
        keys[j] = key;
    }
}

static word ascending(size_t i) { return i; }
static word in_runs(size_t i) { return (i / 100) * 0x9e3779b97f4a7c15u / 65536 * 65536 + i % 100; }
static word random64(size_t i) { (void)i; return any(); }
static word random32(size_t i) { (void)i; return any() >> 32; }
static word multiple(size_t i) { return i * 16; }

/* Places of objects in a heap of 1 GB. */
static word pointer(size_t i) { (void)i; return any() % (1u << 26) * 16; }

/* Words of which one in so many is a key, wherever it lies. */
static word span;
static word sparse(size_t i) { (void)i; return any() % span; }

/* Words that are no keys, or hardly any of them, and lie where the keys do. */
static word above_all(size_t i) { return (1u << 24) + i; }
static word behind_run(size_t i) { return in_runs(i) + 100; }
static word between(size_t i) { return i * 16 + 1 + i % 15; }

static const struct {
    const char *name;
    word (*key)(size_t);
    word (*no_key)(size_t);
    bool shuffled;
    word one_in;
} PATTERNS[] = {
    {"ascending", ascending, above_all, false, 0}, {"shuffled", ascending, above_all, true, 0},
    {"runs-of-100", in_runs, behind_run, true, 0}, {"random-64", random64, random64, false, 0},
    {"random-32", random32, random32, false, 0},   {"multiples-of-16", multiple, between, true, 0},
#define ONE_IN(DENSITY) {"one-in-" #DENSITY, sparse, sparse, false, DENSITY}
    {"pointers", pointer, pointer, false, 0}, ONE_IN(4), ONE_IN(10), ONE_IN(30), ONE_IN(100), ONE_IN(300), ONE_IN(700),
    ONE_IN(1000), ONE_IN(2000), ONE_IN(5000), ONE_IN(10000), ONE_IN(30000), ONE_IN(100000),
};

/* The patterns of most programs. Behind them come those of sparse sets. */
enum { RUNS = 2, USUAL_PATTERNS = 6, SPARSE_PATTERNS = sizeof PATTERNS / sizeof *PATTERNS - USUAL_PATTERNS };

/* The keys as they are put in, in the order in which they are looked for, and as many words that are none; all shuffled but the
 * first where the pattern says so. And the keys by ascending order, each once, by themselves and with a value. */
struct keys {
    size_t n, distinct;
    word *in, *order, *out, *sorted;
    sellumaq_pair *pairs;
};

static int by_word(const void *one, const void *other) {
    word a = *(const word *)one, b = *(const word *)other;
    return (a > b) - (a < b);
}

static void sort(struct keys *keys) {
    memcpy(keys->sorted, keys->in, keys->n * sizeof(word));
    qsort(keys->sorted, keys->n, sizeof(word), by_word);
    for (size_t i = 0; i < keys->n; i++)
        if (i == 0 || keys->sorted[i] != keys->sorted[keys->distinct - 1]) keys->sorted[keys->distinct++] = keys->sorted[i];
    for (size_t i = 0; i < keys->distinct; i++) keys->pairs[i] = (sellumaq_pair){keys->sorted[i], keys->sorted[i]};
}

static const char *name(size_t pattern) { return PATTERNS[pattern].name; }

static struct keys *make(size_t n, size_t pattern) {
    struct keys *keys = room(1, sizeof *keys);
    *keys = (struct keys){n, 0, room(n, sizeof(word)), room(n, sizeof(word)), room(n, sizeof(word)), room(n, sizeof(word)), room(n, sizeof(sellumaq_pair))};
    seed = pattern + 1;
    span = n * PATTERNS[pattern].one_in;
    for (size_t i = 0; i < n; i++) keys->in[i] = keys->order[i] = PATTERNS[pattern].key(i);
    if (PATTERNS[pattern].shuffled) shuffle(keys->in, n);
    shuffle(keys->order, n);
    for (size_t i = 0; i < n; i++) keys->out[i] = PATTERNS[pattern].no_key(i);
    shuffle(keys->out, n);
    sort(keys);
    return keys;
}

static void drop(struct keys *keys) {
    free(keys->in);
    free(keys->order);
    free(keys->out);
    free(keys->sorted);
    free(keys->pairs);
    free(keys);
}

/* Puts the keys in one by one, by ascending order. */
#define EACH_SORTED(PUT) \
    for (size_t i = 0; i < keys->distinct; i++) { \
        word k = keys->sorted[i]; \
        PUT; \
    }
