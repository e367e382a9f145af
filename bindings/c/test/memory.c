/* How many bytes arrays say that they take, beside a malloc of the test's own, which counts the bytes that are held as
 * they were asked for. */
#include <stddef.h>
#include <string.h>

#include "../sellumaq.h"
#include "check.h"

extern void *__libc_malloc(size_t size);
extern void *__libc_realloc(void *block, size_t size);
extern void __libc_free(void *block);

/* Before a block stands how many bytes were asked for. */
enum { HEAD = 16 };

static size_t asked;

static size_t *size_of(void *head) { return head; }

static void *held(void *head, size_t size) {
    if (!head) return NULL;
    *size_of(head) = size;
    asked += size;
    return (char *)head + HEAD;
}

void *malloc(size_t size) { return size > SIZE_MAX - HEAD ? NULL : held(__libc_malloc(size + HEAD), size); }

void free(void *block) {
    if (!block) return;
    void *head = (char *)block - HEAD;
    asked -= *size_of(head);
    __libc_free(head);
}

void *realloc(void *block, size_t size) {
    if (!block) return malloc(size);
    if (size > SIZE_MAX - HEAD) return NULL;
    void *head = (char *)block - HEAD;
    size_t before = *size_of(head);
    void *moved = __libc_realloc(head, size + HEAD);
    if (moved) asked -= before;
    return held(moved, size);
}

void *calloc(size_t count, size_t size) {
    if (size && count > SIZE_MAX / size) return NULL;
    void *block = malloc(count * size);
    return block ? memset(block, 0, count * size) : NULL;
}

/* ---- words ---- */

enum { WORDS = 30000 };

static uint64_t keys[WORDS];
static sellumaq_pair pairs[WORDS];

typedef struct {
    void *array;
} handle;

typedef struct {
    void (*put)(handle *array, uint64_t key);
    bool (*del)(handle *array, uint64_t key);
    uint64_t (*bytes)(const handle *array);
    uint32_t (*from_sorted)(handle *array, size_t count, size_t *place);
    uint32_t (*copy)(handle *made, const handle *array);
    uint64_t (*free)(handle *array);
} Words;

static void judy1_put(handle *set, uint64_t key) {
    CHECK(sellumaq_judy1_set((sellumaq_judy1 *)set, key) != SELLUMAQ_NO_MEMORY);
}
static bool judy1_del(handle *set, uint64_t key) { return sellumaq_judy1_unset((sellumaq_judy1 *)set, key); }
static uint32_t judy1_from_sorted(handle *set, size_t count, size_t *place) {
    return sellumaq_judy1_from_sorted((sellumaq_judy1 *)set, keys, count, place);
}
static void judyl_put(handle *map, uint64_t key) {
    CHECK(sellumaq_judyl_put((sellumaq_judyl *)map, key, ~key) != SELLUMAQ_NO_MEMORY);
}
static bool judyl_del(handle *map, uint64_t key) { return sellumaq_judyl_del((sellumaq_judyl *)map, key); }
static uint32_t judyl_from_sorted(handle *map, size_t count, size_t *place) {
    return sellumaq_judyl_from_sorted((sellumaq_judyl *)map, pairs, count, place);
}

#define WORD_CALLS(kind)                                                                                      \
    static uint64_t kind##_bytes(const handle *array) {                                                       \
        return sellumaq_##kind##_bytes((const sellumaq_##kind *)array);                                        \
    }                                                                                                         \
    static uint32_t kind##_copy(handle *made, const handle *array) {                                          \
        return sellumaq_##kind##_copy((sellumaq_##kind *)made, (const sellumaq_##kind *)array);                \
    }                                                                                                         \
    static uint64_t kind##_free(handle *array) { return sellumaq_##kind##_free((sellumaq_##kind *)array); }    \
    static const Words kind = { kind##_put, kind##_del, kind##_bytes, kind##_from_sorted, kind##_copy, kind##_free };

WORD_CALLS(judy1)
WORD_CALLS(judyl)

/* The n-th key of a pattern: no key comes twice, but among random ones. */
typedef uint64_t Pattern(uint64_t n);

static uint64_t dense(uint64_t n) { return n; }
static uint64_t down(uint64_t n) { return -n; }
static uint64_t sixteens(uint64_t n) { return 16 * n; }
static uint64_t pages(uint64_t n) { return 4096 * n; }
static uint64_t runs(uint64_t n) { return (n / 64 * 0x9E3779B97F4A7C15) + n % 64; }
static uint64_t far_apart(uint64_t n) { return n * 0x9E3779B97F4A7C15; }
static uint64_t groups(uint64_t n) { return (n % 37 << 56) + (n % 5 << 24) + n * n; }
static uint64_t mixed(uint64_t n) { return far_apart(n) >> n % 60; }

/* The array says what it takes, after the first keys one by one and then now and then. */
static void grown(const Words *kind, Pattern *pattern, uint64_t count, handle *array, size_t before) {
    for (uint64_t n = 0; n < count; n++) {
        kind->put(array, pattern(n));
        if (n < 700 || n % 509 == 0) CHECK(kind->bytes(array) == asked - before);
    }
    CHECK(kind->bytes(array) == asked - before);
}

/* So it does while it loses them again, every third one at first. */
static void shrunk(const Words *kind, Pattern *pattern, uint64_t count, handle *array, size_t before) {
    for (uint64_t part = 0; part < 3; part++)
        for (uint64_t n = part; n < count; n += 3) {
            kind->del(array, pattern(n));
            if (n % 509 == 0 || (part == 2 && n + 600 > count)) CHECK(kind->bytes(array) == asked - before);
        }
    CHECK(kind->bytes(array) == asked - before && !kind->del(array, pattern(0)));
}

static void copied(const Words *kind, const handle *array, size_t before) {
    handle made = { NULL };
    size_t there = asked - before;
    CHECK(kind->copy(&made, array) == SELLUMAQ_ADDED);
    CHECK(kind->bytes(&made) == asked - before - there && kind->bytes(array) == there);
    kind->free(&made);
    CHECK(kind->bytes(&made) == 0 && asked - before == there);
}

static void words(const Words *kind) {
    static Pattern *const patterns[] = { dense, down, sixteens, pages, runs, far_apart, groups, mixed };
    static const uint64_t counts[] = { 1, 2, 33, 257, WORDS };
    for (size_t at = 0; at < sizeof patterns / sizeof *patterns; at++)
        for (size_t many = 0; many < sizeof counts / sizeof *counts; many++) {
            handle array = { NULL };
            size_t before = asked;
            CHECK(kind->bytes(&array) == 0);
            grown(kind, patterns[at], counts[many], &array, before);
            copied(kind, &array, before);
            shrunk(kind, patterns[at], counts[many], &array, before);
            /* Without keys the handle has its own few bytes, and then none. */
            CHECK(kind->bytes(&array) > 0 && kind->bytes(&array) < 100);
            kind->free(&array);
            CHECK(kind->bytes(&array) == 0 && asked == before);
        }
}

/* Arrays made at once of keys that ascend, which then lose some. */
static void words_at_once(const Words *kind) {
    for (unsigned spread = 0; spread < 40; spread += 3) {
        handle array = { NULL };
        size_t before = asked, place;
        uint64_t key = any() >> 20;
        for (size_t at = 0; at < WORDS; at++) {
            keys[at] = key;
            pairs[at] = (sellumaq_pair){ key, any() };
            key += 1 + (any() & ((UINT64_C(1) << spread) - 1));
        }
        for (size_t count = 1; count <= WORDS; count = count * 5 + 3) {
            CHECK(kind->from_sorted(&array, count, &place) == SELLUMAQ_ADDED);
            CHECK(kind->bytes(&array) == asked - before);
            for (size_t at = 0; at < count; at += 2) CHECK(kind->del(&array, keys[at]));
            CHECK(kind->bytes(&array) == asked - before);
        }
        kind->free(&array);
        CHECK(kind->bytes(&array) == 0 && asked == before);
    }
}

/* ---- strings and byte strings ---- */

enum { STRINGS = 6000, MORE = 200000, LONGEST = 5000 };

typedef struct {
    uint32_t (*put)(handle *map, const uint8_t *key, size_t length, uint64_t value);
    bool (*del)(handle *map, const uint8_t *key, size_t length);
    uint64_t (*bytes)(const handle *map);
    void (*shrink)(handle *map);
    uint64_t (*free)(handle *map);
} Strings;

#define STRING_CALLS(kind)                                                                                    \
    static uint32_t kind##_put(handle *map, const uint8_t *key, size_t length, uint64_t value) {              \
        return sellumaq_##kind##_put((sellumaq_##kind *)map, key, length, value);                              \
    }                                                                                                         \
    static bool kind##_del(handle *map, const uint8_t *key, size_t length) {                                  \
        return sellumaq_##kind##_del((sellumaq_##kind *)map, key, length);                                     \
    }                                                                                                         \
    static uint64_t kind##_bytes(const handle *map) {                                                         \
        return sellumaq_##kind##_bytes((const sellumaq_##kind *)map);                                          \
    }                                                                                                         \
    static void kind##_shrink(handle *map) { sellumaq_##kind##_shrink((sellumaq_##kind *)map); }               \
    static uint64_t kind##_free(handle *map) { return sellumaq_##kind##_free((sellumaq_##kind *)map); }        \
    static const Strings kind = { kind##_put, kind##_del, kind##_bytes, kind##_shrink, kind##_free };

STRING_CALLS(judysl)
STRING_CALLS(judyhs)

/* The key of a number: each has another one, and none a zero byte. */
typedef size_t Spell(uint64_t n, uint8_t *key);

static size_t short_ones(uint64_t n, uint8_t *key) {
    size_t length = 0;
    for (n++; n > 0; n /= 200) key[length++] = (uint8_t)(1 + n % 200);
    return length;
}

static size_t digits(uint64_t n, uint8_t *key) { return (size_t)sprintf((char *)key, "%llu", (unsigned long long)n); }

/* Of some lengths from 16 on. */
static size_t lengths(uint64_t n, uint8_t *key) {
    size_t length = (size_t)sprintf((char *)key, "%016llx", (unsigned long long)far_apart(n));
    for (size_t more = n % 64; more > 0; more--) key[length++] = 'x';
    return length;
}

/* Pairs of keys that share two pieces of eight bytes, and then some bytes or many. */
static size_t twins(uint64_t n, uint8_t *key) {
    size_t length = (size_t)sprintf((char *)key, "/home/u/%08llu.%c", (unsigned long long)n / 2, n % 2 ? 'c' : 'o');
    for (size_t more = n % 500 == 0 ? 900 : n % 7; more > 0; more--) key[length++] = 'y';
    return length;
}

/* A front of one piece, a hundred second ones, and some keys behind each of these. */
static size_t wide(uint64_t n, uint8_t *key) {
    return (size_t)sprintf((char *)key, "the wide%08llu%llu", (unsigned long long)n % 100, (unsigned long long)n / 100);
}

/* Longer than what one page's record has, for byte strings alone. */
static size_t long_ones(uint64_t n, uint8_t *key) {
    size_t length = (size_t)sprintf((char *)key, "%09llu", (unsigned long long)n);
    for (size_t more = n % 50 * 97; more > 0; more--) key[length++] = 'z';
    return length;
}

static void strings(const Strings *kind, Spell *spell, uint64_t count) {
    uint8_t key[LONGEST];
    handle map = { NULL };
    size_t before = asked;
    CHECK(kind->bytes(&map) == 0);
    for (uint64_t n = 0; n < count; n++) {
        CHECK(kind->put(&map, key, spell(n, key), n) == SELLUMAQ_ADDED);
        if (n < 300 || n % 97 == 0) CHECK(kind->bytes(&map) == asked - before);
    }
    /* All but one of seven go, and then the rest. */
    for (uint64_t n = 0; n < count; n++) {
        if (n % 7 == 1) continue;
        CHECK(kind->del(&map, key, spell(n, key)));
        if (n % 97 == 0) CHECK(kind->bytes(&map) == asked - before);
    }
    kind->shrink(&map);
    CHECK(kind->bytes(&map) == asked - before);
    for (uint64_t n = 1; n < count; n += 7) {
        CHECK(kind->del(&map, key, spell(n, key)));
        if (n % 5 == 0) CHECK(kind->bytes(&map) == asked - before);
    }
    CHECK(kind->bytes(&map) == asked - before && kind->bytes(&map) < 1000);
    kind->free(&map);
    CHECK(kind->bytes(&map) == 0 && asked == before);
}

/* A map made at once and a copy. */
static void strings_at_once(void) {
    static uint8_t bytes[STRINGS * 16];
    static sellumaq_entry entries[STRINGS];
    sellumaq_judysl map = { NULL }, made = { NULL };
    size_t before = asked, room = 0, place;
    for (size_t n = 0; n < STRINGS; n++) {
        size_t length = 8 + n % 3;
        CHECK(sprintf((char *)bytes + room, "%08zuzz", n) == 10);
        entries[n] = (sellumaq_entry){ length, n };
        room += length;
    }
    CHECK(sellumaq_judysl_from_sorted(&map, bytes, room, entries, STRINGS, &place) == SELLUMAQ_ADDED);
    size_t there = asked - before;
    CHECK(sellumaq_judysl_bytes(&map) == there);
    CHECK(sellumaq_judysl_copy(&made, &map) == SELLUMAQ_ADDED);
    CHECK(sellumaq_judysl_bytes(&made) == asked - before - there && sellumaq_judysl_bytes(&map) == there);
    sellumaq_judysl_free(&map);
    CHECK(sellumaq_judysl_bytes(&made) == asked - before);
    sellumaq_judysl_free(&made);
    CHECK(asked == before);
}

/* Of so many keys of one length some share their hash. What their trees take may be more than the map says: it never
 * says more than it takes, nor lacks much. */
static void shared_hashes(void) {
    uint8_t key[LONGEST];
    handle map = { NULL };
    size_t before = asked;
    for (uint64_t n = 0; n < MORE; n++) {
        CHECK(judyhs.put(&map, key, lengths(64 * n, key), n) == SELLUMAQ_ADDED);
        if (n % 20011 == 0) CHECK(judyhs.bytes(&map) <= asked - before);
    }
    size_t told = judyhs.bytes(&map), taken = asked - before;
    CHECK(told <= taken && taken - told < taken / 100);
    CHECK(judyhs.free(&map) == MORE && asked == before);
}

int main(void) {
    words(&judy1);
    words(&judyl);
    words_at_once(&judy1);
    words_at_once(&judyl);
    static Spell *const spells[] = { short_ones, digits, lengths, twins, wide };
    static const uint64_t counts[] = { 1, 2, 200, STRINGS };
    for (size_t many = 0; many < sizeof counts / sizeof *counts; many++) {
        for (size_t at = 0; at < sizeof spells / sizeof *spells; at++) {
            strings(&judysl, spells[at], counts[many]);
            strings(&judyhs, spells[at], counts[many]);
        }
        strings(&judyhs, long_ones, counts[many]);
    }
    strings_at_once();
    shared_hashes();
    return 0;
}
