/* How much memory maps from strings and from byte strings hold that lost nearly all their keys: at most a page for each
 * length of which a key is left, and what the levels or groups keep, by a malloc of the test's own that counts. */
#include <string.h>

#include "../sellumaq.h"
#include "check.h"
#include "refusing.h"

/* Keys of 64 lengths, from 9 to 765 bytes, 1,000 of each; and many keys of 16 digits. How many bytes may be held when
 * all but one of each length are gone. */
enum { LENGTHS = 64, EACH = 1000, MANY = 1000000, ROOM = 1024, MOST_OF_LENGTHS = 1500000, MOST_OF_MANY = 500000 };

typedef struct {
    uint32_t (*put)(void *map, const uint8_t *key, size_t length, uint64_t value);
    bool (*get)(const void *map, const uint8_t *key, size_t length, uint64_t *value);
    bool (*del)(void *map, const uint8_t *key, size_t length);
    uint64_t (*bytes)(const void *map);
    uint64_t (*free)(void *map);
} Kind;

#define KIND(kind)                                                                                            \
    static uint32_t kind##_put(void *map, const uint8_t *key, size_t length, uint64_t value) {                \
        return sellumaq_##kind##_put(map, key, length, value);                                                \
    }                                                                                                         \
    static bool kind##_get(const void *map, const uint8_t *key, size_t length, uint64_t *value) {             \
        return sellumaq_##kind##_get(map, key, length, value);                                                \
    }                                                                                                         \
    static bool kind##_del(void *map, const uint8_t *key, size_t length) {                                    \
        return sellumaq_##kind##_del(map, key, length);                                                       \
    }                                                                                                         \
    static uint64_t kind##_bytes(const void *map) { return sellumaq_##kind##_bytes(map); }                    \
    static uint64_t kind##_free(void *map) { return sellumaq_##kind##_free(map); }                            \
    static const Kind kind = {kind##_put, kind##_get, kind##_del, kind##_bytes, kind##_free};

KIND(judysl)
KIND(judyhs)

/* Writes digits that begin no other number's, and bytes behind them up to a length of 9 or more. */
static size_t spell(uint64_t number, size_t length, uint8_t *key) {
    char digits[17];
    sprintf(digits, "%016llx", (unsigned long long)(number * 0x9E3779B97F4A7C15));
    memset(key, 'k', length);
    memcpy(key, digits, length < 16 ? length : 16);
    return length;
}

/* Puts so many keys of a length in, and takes all out but the one at a place. */
static void fill_and_empty(const Kind *kind, void *map, uint64_t first, size_t length, uint64_t count, uint64_t stays) {
    uint8_t key[ROOM];
    for (uint64_t n = 0; n < count; n++)
        CHECK(kind->put(map, key, spell(first + n, length, key), n) == SELLUMAQ_ADDED);
    for (uint64_t n = 0; n < count; n++)
        CHECK(n == stays || kind->del(map, key, spell(first + n, length, key)));
}

static bool is_left(const Kind *kind, const void *map, uint64_t number, size_t length, uint64_t wanted) {
    uint8_t key[ROOM];
    uint64_t value;
    return kind->get(map, key, spell(number, length, key), &value) && value == wanted;
}

static size_t length_at(size_t at) { return 9 + 12 * at; }

static void lengths_in_turn(const Kind *kind, uint64_t stays) {
    void *map[1] = {NULL};
    size_t before = held_bytes;
    long blocks = held;
    for (size_t at = 0; at < LENGTHS; at++) fill_and_empty(kind, map, at * EACH, length_at(at), EACH, stays);
    CHECK(held_bytes - before <= MOST_OF_LENGTHS && kind->bytes(map) <= held_bytes - before);
    for (size_t at = 0; at < LENGTHS; at++) CHECK(is_left(kind, map, at * EACH + stays, length_at(at), stays));
    CHECK(kind->free(map) == LENGTHS && held == blocks && held_bytes == before);
}

static void many_of_a_length(const Kind *kind, uint64_t stays) {
    void *map[1] = {NULL};
    size_t before = held_bytes;
    long blocks = held;
    fill_and_empty(kind, map, 0, 16, MANY, stays);
    CHECK(held_bytes - before <= MOST_OF_MANY && kind->bytes(map) <= held_bytes - before);
    CHECK(is_left(kind, map, stays, 16, stays));
    CHECK(kind->free(map) == 1 && held == blocks && held_bytes == before);
}

int main(void) {
    static const Kind *const kinds[] = {&judysl, &judyhs};
    for (size_t kind = 0; kind < 2; kind++) {
        for (uint64_t stays = 0; stays < EACH; stays += EACH / 3) lengths_in_turn(kinds[kind], stays);
        many_of_a_length(kinds[kind], MANY / 2);
    }
    puts("kept: ok");
    return 0;
}
