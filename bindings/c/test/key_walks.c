/* The walks over strings and byte strings, beside a list of their keys in order, with buffers of any size. */
#include <stdlib.h>
#include <string.h>

#include "../sellumaq.h"
#include "check.h"

enum { KEYS = 150, LONGEST = 30, ROOM = KEYS * LONGEST };

typedef struct {
    uint8_t bytes[LONGEST];
    size_t length;
    uint64_t value;
} Row;

static Row rows[KEYS];
static size_t count;

static int by_bytes(const void *one, const void *other) {
    const Row *a = one, *b = other;
    int order = memcmp(a->bytes, b->bytes, a->length < b->length ? a->length : b->length);
    return order ? order : (a->length > b->length) - (a->length < b->length);
}

static int by_length(const void *one, const void *other) {
    const Row *a = one, *b = other;
    return a->length != b->length ? (a->length > b->length) - (a->length < b->length) : by_bytes(one, other);
}

/* Keys of few different bytes, from `least` on, in an order, each once. */
static void make_rows(uint8_t least, int (*order)(const void *, const void *)) {
    for (int place = 0; place < KEYS; place++) {
        Row *row = &rows[place];
        row->length = any() % LONGEST;
        row->value = any();
        for (size_t at = 0; at < row->length; at++) row->bytes[at] = (uint8_t)(least + any() % 2);
    }
    qsort(rows, KEYS, sizeof *rows, order);
    count = 0;
    for (int place = 0; place < KEYS; place++)
        if (count == 0 || by_bytes(&rows[count - 1], &rows[place])) rows[count++] = rows[place];
}

/* What was told is what is listed from a place on, as much as the buffers have room for, and behind it nothing is
 * written. */
static void compare(size_t place, const uint8_t *bytes, size_t room, const sellumaq_entry *entries, size_t capacity, size_t told) {
    size_t used = 0;
    for (size_t at = 0; at < told; at++, used += entries[at - 1].length) {
        const Row *row = &rows[place + at];
        CHECK(place + at < count && entries[at].length == row->length && entries[at].value == row->value);
        CHECK(used + row->length <= room && memcmp(bytes + used, row->bytes, row->length) == 0);
    }
    CHECK(told == capacity || place + told == count || used + rows[place + told].length > room);
    CHECK(used == ROOM || bytes[used] == 255);
    CHECK(told == KEYS || entries[told].length == 99);
}

static size_t least_from(const Row *from, bool itself) {
    size_t place = 0;
    while (place < count && by_bytes(&rows[place], from) < (itself ? 0 : 1)) place++;
    return place;
}

static uint8_t bytes[ROOM];
static sellumaq_entry entries[KEYS];

static void clear(void) {
    memset(bytes, 255, sizeof bytes);
    for (int at = 0; at < KEYS; at++) entries[at].length = 99;
}

static void walk_strings(const sellumaq_judysl *map) {
    for (int turn = 0; turn < 400; turn++) {
        Row from = rows[any() % count];
        bool itself = any() % 2;
        size_t room = any() % ROOM, capacity = any() % KEYS;
        if (any() % 2 && from.length) from.length--;
        clear();
        compare(least_from(&from, itself), bytes, room, entries, capacity, sellumaq_judysl_walk(map, from.bytes, from.length, itself, bytes, room, entries, capacity));
    }
}

static void walk_bytes(const sellumaq_judyhs *map) {
    for (int turn = 0; turn < 100; turn++) {
        size_t behind = any() % count, room = any() % ROOM, capacity = any() % KEYS, told = 0;
        clear();
        CHECK(sellumaq_judyhs_walk(map, behind, bytes, room, entries, capacity, &told));
        compare(behind, bytes, room, entries, capacity, told);
    }
}

/* Empty maps, strings that no map holds, and places behind the end. */
static void edges(const sellumaq_judysl *strings, const sellumaq_judyhs *hashed) {
    sellumaq_judysl no_strings = {0};
    sellumaq_judyhs no_bytes = {0};
    size_t told = 7;
    CHECK(sellumaq_judysl_walk(&no_strings, bytes, 0, true, bytes, ROOM, entries, KEYS) == 0 && no_strings.array == NULL);
    CHECK(sellumaq_judyhs_walk(&no_bytes, 0, bytes, ROOM, entries, KEYS, &told) && told == 0 && no_bytes.array == NULL);
    bytes[0] = 0;
    CHECK(sellumaq_judysl_walk(strings, bytes, 1, true, bytes, ROOM, entries, KEYS) == 0);
    CHECK(sellumaq_judyhs_walk(hashed, count, bytes, ROOM, entries, KEYS, &told) && told == 0);
    CHECK(sellumaq_judyhs_walk(hashed, SIZE_MAX, bytes, ROOM, entries, KEYS, &told) && told == 0);
}

int main(void) {
    sellumaq_judysl strings = {0};
    sellumaq_judyhs hashed = {0};
    make_rows('a', by_bytes);
    for (size_t at = 0; at < count; at++) CHECK(sellumaq_judysl_put(&strings, rows[at].bytes, rows[at].length, rows[at].value) == SELLUMAQ_ADDED);
    walk_strings(&strings);
    make_rows(0, by_length);
    for (size_t at = 0; at < count; at++) CHECK(sellumaq_judyhs_put(&hashed, rows[at].bytes, rows[at].length, rows[at].value) == SELLUMAQ_ADDED);
    walk_bytes(&hashed);
    edges(&strings, &hashed);
    sellumaq_judysl_free(&strings);
    sellumaq_judyhs_free(&hashed);
    puts("key_walks: ok");
    return 0;
}
