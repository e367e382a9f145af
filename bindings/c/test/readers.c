/* Threads that read the same arrays at one time, and each changes one of its own. */
#include <pthread.h>
#include <string.h>

#include "../sellumaq.h"
#include "check.h"

enum { KEYS = 2000, THREADS = 3 };

static sellumaq_judy1 set;
static sellumaq_judyl map;
static sellumaq_judysl strings;
static sellumaq_judyhs bytes;

static size_t spell(uint64_t key, uint8_t *string) { return (size_t)sprintf((char *)string, "key %d", (int)key); }

static void *read_all(void *none) {
    sellumaq_judyl own = {0};
    uint64_t found, value, *slot;
    uint8_t string[32];
    for (uint64_t key = 0; key < KEYS; key++) {
        size_t length = spell(key, string);
        CHECK(sellumaq_judy1_test(&set, key * 3) && sellumaq_judy1_next_empty(&set, key * 3, &found) && found == key * 3 + 1);
        CHECK(sellumaq_judyl_get(&map, key * 977, &value) && value == key && sellumaq_judyl_count(&map, 0, key * 977) == key + 1);
        CHECK(sellumaq_judyl_by_count(&map, key + 1, &found) && found == key * 977);
        CHECK(sellumaq_judysl_get(&strings, string, length, &value) && value == key);
        CHECK(sellumaq_judyhs_get(&bytes, string, length, &value) && value == key);
        CHECK(sellumaq_judysl_last(&strings, string, sizeof string, &length, &value) == SELLUMAQ_FOUND && value == key);
        CHECK(sellumaq_judysl_last_slot(&strings, string, sizeof string, &length, &slot) == SELLUMAQ_FOUND && *slot == key);
        CHECK(sellumaq_judyl_ins(&own, key * key, &slot));
    }
    CHECK(sellumaq_judyl_free(&own) == KEYS);
    return none;
}

int main(void) {
    pthread_t threads[THREADS];
    uint64_t *slot;
    uint8_t string[16];
    for (uint64_t key = 0; key < KEYS; key++) {
        size_t length = spell(key, string);
        CHECK(sellumaq_judy1_set(&set, key * 3) == SELLUMAQ_ADDED);
        CHECK(sellumaq_judyl_put(&map, key * 977, key) == SELLUMAQ_ADDED);
        CHECK(sellumaq_judysl_ins(&strings, string, length, &slot) == SELLUMAQ_FOUND); *slot = key;
        CHECK(sellumaq_judyhs_ins(&bytes, string, length, &slot) == SELLUMAQ_FOUND); *slot = key;
    }
    for (int at = 0; at < THREADS; at++) CHECK(!pthread_create(&threads[at], NULL, read_all, NULL));
    for (int at = 0; at < THREADS; at++) CHECK(!pthread_join(threads[at], NULL));
    CHECK(sellumaq_judy1_free(&set) + sellumaq_judyl_free(&map) + sellumaq_judysl_free(&strings) + sellumaq_judyhs_free(&bytes) == 4 * KEYS);
    puts("readers: ok");
    return 0;
}
