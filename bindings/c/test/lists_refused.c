/* A wide level of strings whose list of counts is refused memory: inserts go on without the list, counts stay right,
 * and it is back when a key has come for each eight entries of the level. How many bytes a map takes shows whether it
 * is there, beside a twin that is refused nothing. */
#include "../sellumaq.h"
#include "check.h"
#include "refusing.h"

/* So many keys come before the list is refused. At most so many come until it needs memory. */
enum { KEYS = 20000, BEFORE = 12000, ROOM = 200, LONGEST = 32 };

static sellumaq_judysl map, twin;

/* How many keys they have: the first ones by number, which is their order too. */
static unsigned keys;

static size_t key_of(unsigned n, uint8_t *key) {
    return (size_t)sprintf((char *)key, "/home/u/%08u.%c", n / 2, n % 2 ? 'o' : 'c');
}

static uint32_t put(sellumaq_judysl *array) {
    uint8_t key[LONGEST];
    size_t length = key_of(keys, key);
    return sellumaq_judysl_put(array, key, length, keys);
}

/* Puts the next key in. */
static void grow(void) {
    CHECK(put(&map) == SELLUMAQ_ADDED && put(&twin) == SELLUMAQ_ADDED);
    keys++;
}

/* The same where the map is answered no more calls for memory than the key can't do without. */
static void grow_refused(void) {
    uint32_t told;
    long calls = 0;
    do {
        answered = calls++;
        told = put(&map);
    } while (told == SELLUMAQ_NO_MEMORY);
    answered = -1;
    CHECK(told == SELLUMAQ_ADDED && put(&twin) == SELLUMAQ_ADDED);
    keys++;
}

/* Whether the map takes as many bytes as the twin, but for 5 %. */
static bool is_listed(void) {
    uint64_t bytes = sellumaq_judysl_bytes(&map), most = sellumaq_judysl_bytes(&twin);
    return bytes * 20 >= most * 19 && bytes * 20 <= most * 21;
}

static void compare(void) {
    CHECK(sellumaq_judysl_len(&map) == keys);
    for (int turn = 0; turn < 200; turn++) {
        uint8_t low[LONGEST], high[LONGEST], found[LONGEST];
        unsigned from = any() % keys, to = any() % keys;
        size_t from_length = key_of(from, low), to_length = key_of(to, high), length;
        uint64_t value;
        CHECK(sellumaq_judysl_count(&map, low, from_length, high, to_length) == (from <= to ? to - from + 1 : 0));
        CHECK(sellumaq_judysl_by_count(&map, from + 1, found, sizeof found, &length, &value) == SELLUMAQ_FOUND && value == from);
    }
}

int main(void) {
    puts("lists of counts without memory"); /* so that the stream has its buffer */
    long blocks = held;
    while (keys < BEFORE) grow();
    CHECK(is_listed());
    while (is_listed()) {
        CHECK(keys < BEFORE + ROOM);
        grow_refused();
    }
    compare();
    for (unsigned end = keys + keys / 8; keys < end;) grow_refused();
    CHECK(!is_listed());
    compare();
    for (unsigned end = keys + keys / 12; keys < end;) grow();
    CHECK(is_listed());
    compare();
    while (keys < KEYS) grow();
    CHECK(is_listed());
    compare();
    CHECK(sellumaq_judysl_free(&map) == KEYS && sellumaq_judysl_free(&twin) == KEYS && held == blocks);
    puts("lists_refused: ok");
    return 0;
}
