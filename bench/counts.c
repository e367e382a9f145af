/* Measures how many keys of a map of strings stand between two strings, and which key stands at a place: Sellumaq's map, a skip list whose links
 * tell how many keys they pass, as Redis keeps its sorted sets, and, where it is linked, Rust's BTreeMap, which can only walk. libJudy's map of
 * strings has neither call. measure.h says what it prints.
 *
 *     counts [KEYS ..]        how many keys, 10000 and 1000000 where none is told
 */
#define _GNU_SOURCE
#include "measure.h"
#include "sellumaq.h"
#include "texts.h"

/* ---- a skip list with spans ---- */

enum { MOST_LINKS = 32 };

/* A key with its links, each to the next key of so many links at least, and how many keys further on that is. */
struct skip_node {
    const text *key;
    struct { struct skip_node *next; word span; } links[];
};

struct skip_list {
    struct skip_node *head;
    size_t height;
    word length;
};

static struct skip_node *skip_node(const text *key, size_t links) {
    struct skip_node *made = room(1, sizeof *made + links * sizeof made->links[0]);
    made->key = key;
    return made;
}

static struct skip_list *skip_new(void) {
    struct skip_list *list = room(1, sizeof *list);
    *list = (struct skip_list){skip_node(NULL, MOST_LINKS), 1, 0};
    return list;
}

static void skip_free(struct skip_list *list) {
    for (struct skip_node *it = list->head, *next; it; it = next) {
        next = it->links[0].next;
        free(it);
    }
    free(list);
}

static int compared(const text *one, const text *other) {
    size_t least = one->length < other->length ? one->length : other->length;
    int order = memcmp(one->bytes, other->bytes, least);
    return order ? order : (one->length > other->length) - (one->length < other->length);
}

/* The last key before the given one at each height, and how many keys stand up to it; answers the latter for the lowest. */
static word skip_find(const struct skip_list *list, const text *key, struct skip_node **before, word *passed) {
    struct skip_node *at = list->head;
    word place = 0;
    for (size_t height = list->height; height-- > 0;) {
        while (at->links[height].next && compared(at->links[height].next->key, key) < 0) {
            place += at->links[height].span;
            at = at->links[height].next;
        }
        before[height] = at;
        passed[height] = place;
    }
    return place;
}

static const text *skip_at(const struct skip_list *list, const text *key) {
    struct skip_node *before[MOST_LINKS];
    word passed[MOST_LINKS];
    skip_find(list, key, before, passed);
    struct skip_node *found = before[0]->links[0].next;
    return found && compared(found->key, key) == 0 ? found->key : NULL;
}

static size_t links_of_new(void) {
    size_t links = 1;
    for (word bits = any(); links < MOST_LINKS && (bits & 3) == 0; bits >>= 2) links++;
    return links;
}

static void skip_put(struct skip_list *list, const text *key) {
    struct skip_node *before[MOST_LINKS];
    word passed[MOST_LINKS];
    word place = skip_find(list, key, before, passed);
    struct skip_node *next = before[0]->links[0].next;
    if (next && compared(next->key, key) == 0) return;
    size_t links = links_of_new();
    for (; list->height < links; list->height++) {
        before[list->height] = list->head;
        passed[list->height] = 0;
        list->head->links[list->height].span = list->length;
    }
    struct skip_node *made = skip_node(key, links);
    for (size_t height = 0; height < list->height; height++) {
        if (height >= links) {
            before[height]->links[height].span++;
            continue;
        }
        made->links[height].next = before[height]->links[height].next;
        made->links[height].span = before[height]->links[height].span - (place - passed[height]);
        before[height]->links[height].next = made;
        before[height]->links[height].span = place - passed[height] + 1;
    }
    list->length++;
}

/* How many keys are less than the given one. */
static word skip_rank(const struct skip_list *list, const text *key) {
    struct skip_node *before[MOST_LINKS];
    word passed[MOST_LINKS];
    return skip_find(list, key, before, passed);
}

/* The n-th key, counted from 1, which is there. */
static const text *skip_nth(const struct skip_list *list, word n) {
    const struct skip_node *at = list->head;
    for (size_t height = list->height; height-- > 0;)
        while (at->links[height].next && at->links[height].span <= n) {
            n -= at->links[height].span;
            at = at->links[height].next;
        }
    return at->key;
}

/* ---- measuring ---- */

/* The n-th of a walk goes here. */
static struct { uint8_t bytes[1025]; size_t length; } at;

/* One library's map: `A` is its variable, the other words are statements over it and a key `k`, or expressions; `COUNT` is the keys from `k` to
 * another key `l` that isn't less, and `NTH` a byte of the key at a place `n`, counted from 1. Each so many-th key is asked for. */
#define MEASURE(NAME, A_TYPE, A_INIT, A_END, PUT, FIND, COUNT, NTH, LENGTH, STEP) \
    static void NAME(const struct keys *keys, double *told) { \
        word found = 0; \
        A_TYPE a = A_INIT; \
        EACH(INSERT, const text *k = &keys->in[i]; PUT); \
        EACH(HIT, const text *k = &keys->in[keys->order[i]]; found += FIND); \
        word there = LENGTH, step = STEP, asked = keys->n / step; \
        word begin = now(); \
        for (size_t i = 0; i < asked; i++) { \
            const text *k = &keys->out[i * step], *l = &keys->in[keys->order[i * step]]; \
            if (compared(k, l) > 0) { const text *other = k; k = l; l = other; } \
            found += COUNT; \
        } \
        took(told, RANK, begin, asked); \
        begin = now(); \
        for (size_t i = 0; i < asked; i++) { \
            word n = 1 + (keys->order[i * step] * 7919 + i) % there; \
            found += NTH; \
        } \
        took(told, SELECT, begin, asked); \
        A_END; \
        sink += found; \
    }

static void judysl_put(sellumaq_judysl *map, const text *key) {
    word *slot;
    if (sellumaq_judysl_ins(map, key->bytes, key->length, &slot) == SELLUMAQ_FOUND) *slot = key->length;
}

static word judysl_value(sellumaq_judysl *map, const text *key) {
    word value;
    return sellumaq_judysl_get(map, key->bytes, key->length, &value) ? value : 0;
}

static word judysl_nth(sellumaq_judysl *map, word n) {
    word value;
    return sellumaq_judysl_by_count(map, n, at.bytes, sizeof at.bytes, &at.length, &value) == SELLUMAQ_FOUND ? at.bytes[0] : 0;
}

MEASURE(counts_sellumaq, sellumaq_judysl, {0}, sellumaq_judysl_free(&a), judysl_put(&a, k), judysl_value(&a, k),
        sellumaq_judysl_count(&a, k->bytes, k->length, l->bytes, l->length), judysl_nth(&a, n), sellumaq_judysl_len(&a), 1)
MEASURE(counts_skip_list, struct skip_list *, skip_new(), skip_free(a), skip_put(a, k), skip_at(a, k)->length,
        skip_rank(a, l) - skip_rank(a, k) + (skip_at(a, l) != NULL), skip_nth(a, n)->bytes[0], a->length, 1)

#ifdef WITH_STD
void *btree_text_new(void);
void btree_text_free(void *map);
void btree_text_insert(void *map, const uint8_t *key, size_t length, word value);
word btree_text_value(const void *map, const uint8_t *key, size_t length);
word btree_text_count(const void *map, const uint8_t *from, size_t from_length, const uint8_t *to, size_t to_length);
word btree_text_nth(const void *map, word n);
word btree_text_len(const void *map);

/* A walk takes long, so few keys are asked of a map that can only walk. */
static word few_of(size_t n) { return n < 100 ? 1 : n / 100; }

MEASURE(counts_std, void *, btree_text_new(), btree_text_free(a), btree_text_insert(a, k->bytes, k->length, k->length), btree_text_value(a, k->bytes, k->length),
        btree_text_count(a, k->bytes, k->length, l->bytes, l->length), btree_text_nth(a, n), btree_text_len(a), few_of(keys->n))
#endif

static const struct array ARRAYS[] = {
    {"judysl", "sellumaq", counts_sellumaq},
    {"judysl", "skip-list", counts_skip_list},
#ifdef WITH_STD
    {"judysl", "btreemap", counts_std},
#endif
};

int main(int count, char **words) {
    return measure_all(&(struct program){ARRAYS, sizeof ARRAYS / sizeof *ARRAYS, USUAL_PATTERNS, name, make, drop}, count, words);
}
