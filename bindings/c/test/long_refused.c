/* Maps from long strings that are refused memory: each call says so and leaves the map as it was. And how much memory
 * two keys take that share all but the last byte. */
#include <string.h>

#include "../sellumaq.h"
#include "check.h"
#include "refusing.h"

enum { MEGABYTE = 1 << 20, LONGEST = 4 * MEGABYTE, KEYS = 12 };

typedef struct {
    uint8_t *bytes;
    size_t length;
} Key;

static Key keys[KEYS];

/* Of four lengths two keys that share all but the last byte, and a greater one that shares nothing with them. */
static void make_keys(void) {
    static const size_t lengths[] = {1024, 1025, 65537, LONGEST};
    for (size_t at = 0; at < KEYS; at++) {
        Key *key = &keys[at];
        key->length = lengths[at / 3];
        key->bytes = malloc(key->length);
        CHECK(key->bytes);
        memset(key->bytes, at % 3 < 2 ? 'a' : 'b' + (int)at, key->length);
        key->bytes[key->length - 1] = (uint8_t)('a' + at);
    }
}

/* Whether a map has the keys of a set of places, each with its place for a value, and no others. */
static void compare(const sellumaq_judysl *map, unsigned places) {
    uint64_t value = 77, count = 0;
    for (unsigned at = 0; at < KEYS; at++) {
        bool there = places >> at & 1;
        CHECK(sellumaq_judysl_get(map, keys[at].bytes, keys[at].length, &value) == there && (!there || value == at));
        count += there;
    }
    CHECK(sellumaq_judysl_len(map) == count);
    CHECK(sellumaq_judysl_count(map, NULL, 0, keys[KEYS - 1].bytes, keys[KEYS - 1].length) == count);
}

static void fill(sellumaq_judysl *map, unsigned places) {
    for (unsigned at = 0; at < KEYS; at++)
        if (places >> at & 1) CHECK(sellumaq_judysl_put(map, keys[at].bytes, keys[at].length, at) == SELLUMAQ_ADDED);
}

/* A map with all keys but the last, another with every second one, and a third, which is made of them. */
typedef struct {
    sellumaq_judysl map, other, made;
} Maps;

static const Key *const last = &keys[KEYS - 1], *const first = &keys[0];

/* The calls on them that ask for memory; where it is refused, the greatest number is told as SELLUMAQ_NO_MEMORY. */

static uint32_t ins(Maps *maps) {
    uint64_t own = 77, *slot = &own;
    uint32_t told = sellumaq_judysl_ins(&maps->map, last->bytes, last->length, &slot);
    CHECK(told == SELLUMAQ_FOUND ? *slot == 0 && (*slot = KEYS - 1) : slot == &own && own == 77);
    return told;
}
static uint32_t put(Maps *maps) { return sellumaq_judysl_put(&maps->map, last->bytes, last->length, KEYS - 1); }
static uint32_t insert(Maps *maps) {
    uint64_t was = 77;
    uint32_t told = sellumaq_judysl_insert(&maps->map, last->bytes, last->length, KEYS - 1, &was);
    CHECK(was == 77);
    return told;
}
static uint32_t remove_range(Maps *maps) {
    uint64_t count = sellumaq_judysl_remove_range(&maps->map, keys[9].bytes, keys[9].length, keys[10].bytes, keys[10].length);
    CHECK(count == 2 || count == UINT64_MAX);
    return count == 2 ? SELLUMAQ_ADDED : SELLUMAQ_NO_MEMORY;
}
static uint32_t remove_prefix(Maps *maps) {
    uint64_t count = sellumaq_judysl_remove_prefix(&maps->map, keys[6].bytes, keys[6].length - 1);
    CHECK(count == 4 || count == UINT64_MAX);
    return count == 4 ? SELLUMAQ_ADDED : SELLUMAQ_NO_MEMORY;
}
static uint32_t copy(Maps *maps) { return sellumaq_judysl_copy(&maps->made, &maps->map); }
static uint32_t both(Maps *maps) { return sellumaq_judysl_union(&maps->made, &maps->map, &maps->other); }
static uint32_t common(Maps *maps) { return sellumaq_judysl_intersection(&maps->made, &maps->map, &maps->other); }
static uint32_t only(Maps *maps) { return sellumaq_judysl_difference(&maps->made, &maps->map, &maps->other); }
static uint32_t one_of(Maps *maps) { return sellumaq_judysl_symmetric_difference(&maps->made, &maps->map, &maps->other); }

enum { FIRST = (1 << (KEYS - 1)) - 1, SECOND = 0x555 };

/* A call changes the first map, or makes the third, which has the keys of these places then. */
static const struct {
    uint32_t (*call)(Maps *maps);
    bool makes;
    unsigned places;
} calls[] = {
    {ins, false, FIRST | 1 << (KEYS - 1)},
    {put, false, FIRST | 1 << (KEYS - 1)},
    {insert, false, FIRST | 1 << (KEYS - 1)},
    {remove_range, false, FIRST & ~(3 << 9)},
    {remove_prefix, false, FIRST & ~(3 << 6 | 3 << 9)},
    {copy, true, FIRST},
    {both, true, FIRST | SECOND},
    {common, true, FIRST & SECOND},
    {only, true, FIRST & ~SECOND},
    {one_of, true, FIRST ^ SECOND},
};

/* Refuses a call its first call for memory and each later one, then from a later one on, until it is done; how often it
 * was refused. Long keys take many blocks, so ever more are answered. */
static int refuse(size_t each, const sellumaq_judysl *full, const sellumaq_judysl *other) {
    for (long turn = 0, times = 0;; turn += 1 + turn / 4, times++) {
        Maps maps = {0};
        const uint8_t was[] = {'w', 'a', 's'};
        uint64_t value = 0;
        CHECK(sellumaq_judysl_put(&maps.made, was, 3, 7) == SELLUMAQ_ADDED);
        maps.other = *other;
        if (calls[each].makes) maps.map = *full;
        else CHECK(sellumaq_judysl_copy(&maps.map, full) == SELLUMAQ_ADDED);
        answered = turn;
        uint32_t told = calls[each].call(&maps);
        answered = -1;
        CHECK(told == SELLUMAQ_ADDED || told == SELLUMAQ_NO_MEMORY);
        bool is_done = told == SELLUMAQ_ADDED;
        compare(&maps.map, is_done && !calls[each].makes ? calls[each].places : FIRST);
        if (is_done && calls[each].makes) compare(&maps.made, calls[each].places);
        else CHECK(sellumaq_judysl_len(&maps.made) == 1 && sellumaq_judysl_get(&maps.made, was, 3, &value) && value == 7);
        sellumaq_judysl_free(&maps.made);
        if (!calls[each].makes) sellumaq_judysl_free(&maps.map);
        if (is_done) return (int)times;
    }
}

/* What needs no memory: deletes, look-ups, searches and counts, whatever is refused. */
static void without_memory(const sellumaq_judysl *full) {
    sellumaq_judysl map = {0};
    static uint8_t buffer[LONGEST];
    CHECK(sellumaq_judysl_copy(&map, full) == SELLUMAQ_ADDED);
    answered = 0;
    for (unsigned at = 0; at < KEYS - 1; at++) {
        size_t length = 0, found = 0;
        uint64_t value = 77;
        CHECK(sellumaq_judysl_first(&map, buffer, sizeof buffer, &length, &value) == SELLUMAQ_FOUND);
        CHECK(sellumaq_judysl_by_count(&map, 1, buffer, 1, &found, &value) == SELLUMAQ_TOO_SMALL && value == length);
        CHECK(sellumaq_judysl_count(&map, buffer, length, last->bytes, last->length) == KEYS - 1 - at);
        CHECK(sellumaq_judysl_del(&map, buffer, length) && !sellumaq_judysl_get(&map, buffer, length, &value));
    }
    CHECK(sellumaq_judysl_len(&map) == 0);
    answered = -1;
    sellumaq_judysl_free(&map);
    /* Ranges of short keys go, where no long one ever came. */
    CHECK(sellumaq_judysl_put(&map, first->bytes, 1024, 1) == SELLUMAQ_ADDED && sellumaq_judysl_put(&map, first->bytes, 9, 2) == SELLUMAQ_ADDED);
    answered = 0;
    uint64_t none = sellumaq_judysl_remove_range(&map, keys[3].bytes, keys[3].length, keys[4].bytes, keys[4].length);
    CHECK((none == 0 || none == UINT64_MAX) && sellumaq_judysl_len(&map) == 2);
    CHECK(sellumaq_judysl_remove_prefix(&map, first->bytes, 10) == 1 && sellumaq_judysl_remove_range(&map, first->bytes, 0, first->bytes, 1024) == 1);
    answered = -1;
    CHECK(sellumaq_judysl_free(&map) == 0);
}

/* A list of long keys that is refused memory, or that is none. */
static void from_sorted(void) {
    sellumaq_judysl map = {0};
    size_t room = keys[0].length + keys[1].length, place = 77;
    uint8_t *bytes = malloc(room);
    sellumaq_entry entries[2] = {{keys[0].length, 0}, {keys[1].length, 1}};
    memcpy(bytes, keys[0].bytes, keys[0].length);
    memcpy(bytes + keys[0].length, keys[1].bytes, keys[1].length);
    for (long turn = 0;; turn++) {
        answered = turn;
        uint32_t told = sellumaq_judysl_from_sorted(&map, bytes, room, entries, 2, &place);
        answered = -1;
        CHECK(place == 77 && (told == SELLUMAQ_ADDED || (told == SELLUMAQ_NO_MEMORY && map.array == NULL)));
        if (told == SELLUMAQ_ADDED) break;
    }
    compare(&map, 3);
    CHECK(sellumaq_judysl_from_sorted(&map, bytes, room - 1, entries, 2, &place) == SELLUMAQ_BAD_KEY && place == 1);
    compare(&map, 3);
    CHECK(sellumaq_judysl_free(&map) == 2);
    free(bytes);
}

/* Two keys of a megabyte that share all but the last byte: the levels between take at most sixteen. */
static void shared(void) {
    sellumaq_judysl map = {0};
    uint8_t *one = malloc(MEGABYTE), *other = malloc(MEGABYTE);
    uint64_t value = 0;
    size_t before = held_bytes;
    long blocks = held;
    CHECK(one && other);
    memset(one, 'k', MEGABYTE);
    memset(other, 'k', MEGABYTE);
    other[MEGABYTE - 1] = 'l';
    CHECK(sellumaq_judysl_put(&map, one, MEGABYTE, 1) == SELLUMAQ_ADDED && held_bytes - before < 2 * MEGABYTE);
    CHECK(sellumaq_judysl_put(&map, other, MEGABYTE, 2) == SELLUMAQ_ADDED && held_bytes - before <= 16 * MEGABYTE);
    CHECK(sellumaq_judysl_get(&map, one, MEGABYTE, &value) && value == 1 && sellumaq_judysl_get(&map, other, MEGABYTE, &value) && value == 2);
    CHECK(!sellumaq_judysl_get(&map, one, MEGABYTE - 1, &value) && sellumaq_judysl_put(&map, one, MEGABYTE - 1, 3) == SELLUMAQ_ADDED);
    CHECK(sellumaq_judysl_del(&map, one, MEGABYTE) && !sellumaq_judysl_get(&map, one, MEGABYTE, &value));
    CHECK(sellumaq_judysl_get(&map, other, MEGABYTE, &value) && value == 2 && sellumaq_judysl_get(&map, one, MEGABYTE - 1, &value) && value == 3);
    CHECK(sellumaq_judysl_del(&map, one, MEGABYTE - 1) && sellumaq_judysl_del(&map, other, MEGABYTE) && sellumaq_judysl_len(&map) == 0);
    CHECK(held_bytes - before < 64 << 10); /* the last key gives all back but what an empty map keeps */
    CHECK(sellumaq_judysl_put(&map, one, MEGABYTE, 1) == SELLUMAQ_ADDED && sellumaq_judysl_put(&map, other, MEGABYTE, 2) == SELLUMAQ_ADDED);
    CHECK(sellumaq_judysl_free(&map) == 2 && held == blocks && held_bytes == before);
    free(one);
    free(other);
}

int main(void) {
    sellumaq_judysl full = {0}, other = {0};
    puts("long strings without memory"); /* so that the stream has its buffer */
    shared();
    make_keys();
    fill(&full, FIRST);
    fill(&other, SECOND);
    for (size_t each = 0; each < sizeof calls / sizeof *calls; each++) CHECK(refuse(each, &full, &other) > 0);
    without_memory(&full);
    from_sorted();
    sellumaq_judysl_free(&full);
    sellumaq_judysl_free(&other);
    for (size_t at = 0; at < KEYS; at++) free(keys[at].bytes);
    CHECK(held == 1); /* the stream's buffer */
    puts("long_refused: ok");
    return 0;
}
