/* What the tests of saved arrays share: the four kinds, each by the same calls, and some keys of each. */
#include <string.h>

#include "../sellumaq.h"
#include "check.h"

typedef struct {
    void *array;
} handle;

typedef struct {
    const char *name;
    uint8_t number; /* in a dump */
    uint32_t (*dump)(const handle *array, uint32_t format, const uint8_t *name, size_t length, uint8_t *bytes, size_t room, size_t *size);
    uint32_t (*dump_size)(const handle *array, uint32_t format, const uint8_t *name, size_t length, size_t *size);
    uint32_t (*load)(handle *array, const uint8_t *bytes, size_t count, uint32_t *fault);
    uint32_t (*save)(const handle *array, const char *path);
    uint32_t (*open)(handle *array, const char *path, uint32_t *fault);
    uint64_t (*len)(const handle *array);
    uint64_t (*free)(handle *array);
    void (*put)(handle *array, uint64_t word);
} kind;

#define CALLS(kind) \
    static uint32_t kind##_dump(const handle *array, uint32_t format, const uint8_t *name, size_t length, uint8_t *bytes, size_t room, size_t *size) { \
        return sellumaq_##kind##_dump((const sellumaq_##kind *)array, format, name, length, bytes, room, size); \
    } \
    static uint32_t kind##_dump_size(const handle *array, uint32_t format, const uint8_t *name, size_t length, size_t *size) { \
        return sellumaq_##kind##_dump_size((const sellumaq_##kind *)array, format, name, length, size); \
    } \
    static uint32_t kind##_load(handle *array, const uint8_t *bytes, size_t count, uint32_t *fault) { \
        return sellumaq_##kind##_load((sellumaq_##kind *)array, bytes, count, fault); \
    } \
    static uint32_t kind##_save(const handle *array, const char *path) { return sellumaq_##kind##_save((const sellumaq_##kind *)array, path); } \
    static uint32_t kind##_open(handle *array, const char *path, uint32_t *fault) { \
        return sellumaq_##kind##_open((sellumaq_##kind *)array, path, fault); \
    } \
    static uint64_t kind##_len(const handle *array) { return sellumaq_##kind##_len((const sellumaq_##kind *)array); } \
    static uint64_t kind##_free(handle *array) { return sellumaq_##kind##_free((sellumaq_##kind *)array); }

CALLS(judy1)
CALLS(judyl)
CALLS(judysl)
CALLS(judyhs)

static void judy1_put(handle *array, uint64_t word) { sellumaq_judy1_set((sellumaq_judy1 *)array, word); }
static void judyl_put(handle *array, uint64_t word) { sellumaq_judyl_put((sellumaq_judyl *)array, word, ~word); }

/* A key of strings for a word: of a front that many share, and some bytes, none of them zero but in byte strings. */
static size_t spell(uint64_t word, bool zeros, uint8_t key[64]) {
    size_t length = word % 3 * 9;
    memset(key, 'f', length);
    for (; word > 0; word >>= 7) key[length++] = (uint8_t)(word & 127) + !zeros;
    return length;
}

static void judysl_put(handle *array, uint64_t word) {
    uint8_t key[64];
    sellumaq_judysl_put((sellumaq_judysl *)array, key, spell(word, false, key), word);
}

static void judyhs_put(handle *array, uint64_t word) {
    uint8_t key[64];
    sellumaq_judyhs_put((sellumaq_judyhs *)array, key, spell(word, true, key), word);
}

#define KIND(kind, number) { #kind, number, kind##_dump, kind##_dump_size, kind##_load, kind##_save, kind##_open, kind##_len, kind##_free, kind##_put }

static const kind kinds[] = { KIND(judy1, 1), KIND(judyl, 2), KIND(judysl, 3), KIND(judyhs, 4) };
enum { KINDS = 4 };

/* An array of at most so many keys, close together and far apart. */
static inline handle filled(const kind *kind, unsigned count) {
    handle array = { NULL };
    for (unsigned at = 0; at < count; at++) kind->put(&array, at % 2 ? at : any() >> (at % 60));
    return array;
}

/* A dump, in memory of its own. */
typedef struct {
    uint8_t *bytes;
    size_t size;
} text;

static const uint8_t NAME[] = { 'a', 'r', 'r', 'a', 'y' };

static inline text dumped(const kind *kind, const handle *array, uint32_t format) {
    text made = { NULL, 0 };
    CHECK(kind->dump_size(array, format, NAME, sizeof NAME, &made.size) == SELLUMAQ_DONE);
    size_t size = 0;
    made.bytes = malloc(made.size);
    CHECK(made.bytes && kind->dump(array, format, NAME, sizeof NAME, made.bytes, made.size, &size) == SELLUMAQ_DONE && size == made.size);
    return made;
}

/* Whether an array's dump is this one. */
static inline bool is_dumped(const kind *kind, const handle *array, uint32_t format, text wanted) {
    text found = dumped(kind, array, format);
    bool same = found.size == wanted.size && memcmp(found.bytes, wanted.bytes, found.size) == 0;
    free(found.bytes);
    return same;
}
