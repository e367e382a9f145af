/* The arrays over byte strings by Sellumaq's own names, beside a table of keys: some zeros, and behind them a byte that
 * isn't or none. */
#include <string.h>

#include "../sellumaq.h"
#include "check.h"

enum { KEYS = 256 };

static bool held[KEYS];
static uint64_t values[KEYS];

/* Writes a key of the table, of at most 32 bytes, and answers how long it is. */
static size_t key_at(unsigned place, uint8_t *key) {
    size_t length = place / 8;
    memset(key, 0, 32);
    if (place % 8) key[length++] = (uint8_t)(place % 8);
    return length;
}

static uint64_t count_held(void) {
    uint64_t count = 0;
    for (int place = 0; place < KEYS; place++) count += held[place];
    return count;
}

static void compare(sellumaq_judyhs *map, unsigned place) {
    uint8_t key[32];
    size_t length = key_at(place, key);
    uint64_t value = 0, *slot = NULL;
    CHECK(sellumaq_judyhs_get(map, key, length, &value) == held[place] && (!held[place] || value == values[place]));
    CHECK(sellumaq_judyhs_slot(map, key, length, &slot) == held[place] && (!held[place] || *slot == values[place]));
    CHECK(sellumaq_judyhs_len(map) == count_held());
}

/* A length that no object has, and an empty map. */
static void edges(sellumaq_judyhs *map) {
    const uint8_t *none = (const uint8_t *)"";
    uint64_t value = 7, *slot = NULL;
    CHECK(sellumaq_judyhs_ins(map, none, (size_t)PTRDIFF_MAX + 1, &slot) == SELLUMAQ_BAD_KEY && slot == NULL && map->array == NULL);
    CHECK(!sellumaq_judyhs_del(map, none, 0) && !sellumaq_judyhs_slot(map, none, 0, &slot) && map->array == NULL);
    CHECK(sellumaq_judyhs_put(map, none, 0, 5) == SELLUMAQ_ADDED);
    CHECK(sellumaq_judyhs_ins(map, none, SIZE_MAX, &slot) == SELLUMAQ_BAD_KEY && slot == NULL);
    CHECK(!sellumaq_judyhs_get(map, none, SIZE_MAX, &value) && !sellumaq_judyhs_del(map, none, SIZE_MAX) && value == 7);
    CHECK(sellumaq_judyhs_get(map, none, 0, &value) && value == 5 && sellumaq_judyhs_free(map) == 1);
}

/* Keys of some length that differ in one byte, the first or the last, are two, and a byte less is a third. */
static void long_keys(sellumaq_judyhs *map, size_t length) {
    uint8_t *key = calloc(length, 1);
    uint64_t value = 7, *slot = NULL;
    CHECK(key && !sellumaq_judyhs_get(map, key, length, &value) && value == 7);
    CHECK(sellumaq_judyhs_ins(map, key, length, &slot) == SELLUMAQ_FOUND && *slot == 0);
    *slot = length;
    key[length - 1] = 1;
    CHECK(!sellumaq_judyhs_get(map, key, length, &value) && sellumaq_judyhs_put(map, key, length, 2) == SELLUMAQ_ADDED);
    key[length - 1] = 0, key[0] = 1;
    CHECK(!sellumaq_judyhs_del(map, key, length) && sellumaq_judyhs_put(map, key, length - 1, 3) == SELLUMAQ_ADDED);
    key[0] = 0;
    CHECK(sellumaq_judyhs_slot(map, key, length, &slot) && *slot == length);
    CHECK(sellumaq_judyhs_del(map, key, length) && !sellumaq_judyhs_del(map, key, length));
    key[length - 1] = 1;
    CHECK(sellumaq_judyhs_get(map, key, length, &value) && value == 2);
    free(key);
}

/* A key that a walk has no room for is told by the next one. */
static void long_walk(sellumaq_judyhs *map) {
    enum { LONG = 3542 };
    static uint8_t key[LONG], bytes[LONG];
    sellumaq_entry entries[2];
    size_t count = 7;
    memset(key, 'k', LONG);
    CHECK(sellumaq_judyhs_put(map, key, 1, 1) == SELLUMAQ_ADDED && sellumaq_judyhs_put(map, key, LONG, 2) == SELLUMAQ_ADDED);
    CHECK(sellumaq_judyhs_walk(map, 0, bytes, LONG, entries, 2, &count) && count == 1 && entries[0].length == 1 && entries[0].value == 1);
    CHECK(sellumaq_judyhs_walk(map, 1, bytes, LONG - 1, entries, 2, &count) && count == 0);
    CHECK(sellumaq_judyhs_walk(map, 1, bytes, LONG, entries, 2, &count) && count == 1 && entries[0].length == LONG && entries[0].value == 2);
    CHECK(!memcmp(key, bytes, LONG) && sellumaq_judyhs_free(map) == 2);
}

int main(void) {
    sellumaq_judyhs map = {0};
    edges(&map);
    for (int n = 0; n < 4; n++) long_keys(&map, (size_t[]){1024, 1025, 3542, 100000}[n]);
    CHECK(sellumaq_judyhs_free(&map) == 8);
    long_walk(&map);
    compare(&map, 5);
    for (int turn = 0; turn < 20000; turn++) {
        unsigned place = any() % KEYS;
        uint8_t key[32];
        size_t length = key_at(place, key);
        uint64_t *slot = NULL;
        if (any() % 8 < (turn % 4000 < 2000 ? 5 : 3)) {
            CHECK(sellumaq_judyhs_ins(&map, key, length, &slot) == SELLUMAQ_FOUND && *slot == (held[place] ? values[place] : 0));
            held[place] = true;
            values[place] = *slot = any();
        } else {
            CHECK(sellumaq_judyhs_del(&map, key, length) == held[place]);
            held[place] = false;
        }
        compare(&map, any() % KEYS);
    }
    uint64_t left = count_held();
    CHECK(sellumaq_judyhs_free(&map) == left && sellumaq_judyhs_free(&map) == 0);
    puts("bytes: ok");
    return 0;
}
