/* Measures maps of strings whose first eight bytes are the same, and whose next ones differ in many ways: what it takes to put a key in, to look one
 * up, to count the keys between two, and to find the n-th; and inserts and look-ups of libJudy. measure.h says what it prints.
 *
 *     shared [KEYS ..]        how many keys, 10000, 100000 and 1000000 where none is told
 */
#define _GNU_SOURCE
#include <Judy.h>

#include "measure.h"
#include "sellumaq.h"

typedef struct { uint8_t bytes[64]; size_t length; } text;

/* The keys, and the order in which they are looked for. */
struct keys {
    size_t n;
    text *in;
    size_t *order;
};

/* ---- the keys ---- */

static void write_key(text *it, const char *form, size_t number, const char *end) {
    it->length = (size_t)snprintf((char *)it->bytes, sizeof it->bytes, form, (unsigned)number, end);
}

/* Below one stem of eight bytes a piece of eight for each key; the last one has two keys. */
static void one_each(text *it, size_t i, size_t n) { (void)n; write_key(it, "https://%08ux%s", i, ""); }
static void one_of_two(text *it, size_t i, size_t n) { write_key(it, "https://%08ux%s", i + 1 < n ? i : 0, i + 1 < n ? "" : "yy"); }
static void two_each(text *it, size_t i, size_t n) { (void)n; write_key(it, "https://%08u%s", i / 2, i % 2 ? "xx" : "yy"); }
static void paths(text *it, size_t i, size_t n) { (void)n; write_key(it, "/home/u/%08u%s", i / 2, i % 2 ? ".c" : ".o"); }
static void hosts(text *it, size_t i, size_t n) {
    (void)n;
    it->length = (size_t)snprintf((char *)it->bytes, sizeof it->bytes, "https://www.site-%05u.example/%08u", (unsigned)(any() % 100000), (unsigned)i);
}

static const struct {
    const char *name;
    void (*make)(text *it, size_t i, size_t n);
} PATTERNS[] = {{"one-each", one_each}, {"one-of-two", one_of_two}, {"two-each", two_each}, {"paths", paths}, {"hosts", hosts}};

static const char *name(size_t pattern) { return PATTERNS[pattern].name; }

static struct keys *make(size_t n, size_t pattern) {
    struct keys *keys = room(1, sizeof *keys);
    *keys = (struct keys){n, room(n, sizeof(text)), room(n, sizeof(size_t))};
    seed = pattern + 1;
    for (size_t i = 0; i < n; i++) {
        PATTERNS[pattern].make(&keys->in[i], i, n);
        size_t j = any() % (i + 1);
        keys->order[i] = keys->order[j];
        keys->order[j] = i;
    }
    return keys;
}

static void drop(struct keys *keys) {
    free(keys->in);
    free(keys->order);
    free(keys);
}

/* ---- measuring ---- */

/* Calls that may take long are made so often, and then until so many nanoseconds have gone. */
enum { LEAST = 16, LONG = 20000000 };

#define SOME(OPERATION, ...) \
    do { \
        word begin = now(); \
        size_t i = 0; \
        while (i < keys->n && (i % LEAST || i == 0 || now() - begin < LONG)) { \
            __VA_ARGS__; \
            i++; \
        } \
        took(told, OPERATION, begin, i); \
    } while (0)

static int compared(const text *one, const text *other) {
    size_t least = one->length < other->length ? one->length : other->length;
    int order = memcmp(one->bytes, other->bytes, least);
    return order ? order : (one->length > other->length) - (one->length < other->length);
}

static word count_between(const sellumaq_judysl *map, const text *one, const text *other) {
    const text *first = compared(one, other) > 0 ? other : one, *last = first == one ? other : one;
    return sellumaq_judysl_count(map, first->bytes, first->length, last->bytes, last->length);
}

static word nth(const sellumaq_judysl *map, word n) {
    uint8_t key[sizeof(text)];
    size_t length = 0;
    word value;
    return sellumaq_judysl_by_count(map, n, key, sizeof key, &length, &value) == SELLUMAQ_FOUND ? key[0] : 0;
}

static void ours(const struct keys *keys, double *told) {
    sellumaq_judysl map = {0};
    word found = 0, value;
    size_t held = mallinfo2().uordblks;
    EACH(INSERT, const text *k = &keys->in[keys->order[i]]; found += sellumaq_judysl_put(&map, k->bytes, k->length, i));
    told[BYTES] = (double)(mallinfo2().uordblks - held) / keys->n;
    EACH(HIT, const text *k = &keys->in[keys->order[keys->n - 1 - i]]; found += sellumaq_judysl_get(&map, k->bytes, k->length, &value));
    SOME(RANK, found += count_between(&map, &keys->in[keys->order[i]], &keys->in[keys->order[keys->n - 1 - i]]));
    SOME(SELECT, found += nth(&map, keys->order[i] + 1));
    sellumaq_judysl_free(&map);
    sink += found;
}

static void libjudys(const struct keys *keys, double *told) {
    Pvoid_t map = NULL;
    word found = 0;
    size_t held = mallinfo2().uordblks;
    EACH(INSERT, *(word *)JudySLIns(&map, keys->in[keys->order[i]].bytes, PJE0) = i);
    told[BYTES] = (double)(mallinfo2().uordblks - held) / keys->n;
    EACH(HIT, found += *(word *)JudySLGet(map, keys->in[keys->order[keys->n - 1 - i]].bytes, PJE0));
    JudySLFreeArray(&map, PJE0);
    sink += found;
}

static const struct array ARRAYS[] = {{"judysl", "sellumaq", ours}, {"judysl", "libjudy", libjudys}};

int main(int count, char **words) {
    struct program program = {ARRAYS, sizeof ARRAYS / sizeof *ARRAYS, sizeof PATTERNS / sizeof *PATTERNS, name, make, drop};
    if (count > 1) return measure_all(&program, count, words);
    return measure_all(&program, 4, (char *[]){words[0], "10000", "100000", "1000000"});
}
