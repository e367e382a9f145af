/* Maps from strings of any length, beside a table of keys of up to 4 MB, or as many bytes as the program is told: some
 * share all but the last byte, and others nothing. Each buffer has as many bytes as a call is told, so that Valgrind
 * sees what is read or written beyond. */
#include <string.h>

#include "../sellumaq.h"
#include "check.h"

enum { KEYS = 17, TILDE = '~' };

static size_t lengths[] = {1024, 1025, 65537, 4 << 20};
#define LONGEST lengths[3]

typedef struct {
    uint8_t *bytes;
    size_t length;
    uint64_t value;
    bool held;
} Row;

static Row rows[KEYS];

static int order(const uint8_t *one, size_t length, const uint8_t *other, size_t other_length) {
    int told = memcmp(one, other, length < other_length ? length : other_length);
    return told ? told : (length > other_length) - (length < other_length);
}

static int by_bytes(const void *one, const void *other) {
    const Row *a = one, *b = other;
    return order(a->bytes, a->length, b->bytes, b->length);
}

static uint8_t *buffer_of(size_t room) {
    uint8_t *bytes = malloc(room ? room : 1);
    CHECK(bytes);
    return bytes;
}

/* Of each length two keys that share all but the last byte, one that differs from the first byte on, and the greatest
 * one; and the empty key. */
static void make_rows(void) {
    size_t count = 1;
    rows[0].bytes = buffer_of(0);
    for (size_t at = 0; at < sizeof lengths / sizeof *lengths; at++)
        for (int shape = 0; shape < 4; shape++, count++) {
            Row *row = &rows[count];
            row->length = lengths[at];
            row->bytes = buffer_of(row->length);
            memset(row->bytes, shape < 2 ? 'a' : shape == 2 ? 'b' + (int)at : 255, row->length);
            if (shape < 2) row->bytes[row->length - 1] = shape ? 'c' : 'b';
        }
    qsort(rows, KEYS, sizeof *rows, by_bytes);
    for (size_t at = 0; at < KEYS; at++) rows[at].value = at + 100;
}

static size_t held_count(size_t from, size_t end) {
    size_t count = 0;
    for (size_t at = from; at < end; at++) count += rows[at].held;
    return count;
}

/* The place of the nearest key that the map has, or -1. */
static int next_held(int at) { for (; at < KEYS; at++) if (rows[at].held) return at; return -1; }
static int prev_held(int at) { for (; at >= 0; at--) if (rows[at].held) return at; return -1; }

typedef uint32_t scan(const sellumaq_judysl *map, uint8_t *buffer, size_t capacity, size_t *length, uint64_t *value);
typedef uint32_t slot_scan(const sellumaq_judysl *map, uint8_t *buffer, size_t capacity, size_t *length, uint64_t **slot);

/* A buffer of so many bytes that begins with a row's key. */
static uint8_t *begun(const Row *row, size_t room) {
    uint8_t *buffer = buffer_of(room);
    memset(buffer, TILDE, room);
    memcpy(buffer, row->bytes, row->length);
    return buffer;
}

/* Whether a buffer of so many bytes begins with one row's key, and behind it stands what was there behind another's. */
static bool holds(const uint8_t *buffer, size_t room, const Row *row, const Row *before) {
    if (memcmp(buffer, row->bytes, row->length)) return false;
    for (size_t at = row->length; at < room; at++)
        if (buffer[at] != (at < before->length ? before->bytes[at] : TILDE)) return false;
    return true;
}

/* A search from a row, whose answer is another, with so much room: it is found, or told to be too long. */
static void search_with(scan *call, slot_scan *slots, const sellumaq_judysl *map, const Row *from, const Row *wanted, size_t room) {
    bool fits = wanted->length <= room;
    uint8_t *buffer = begun(from, room);
    size_t length = from->length;
    uint64_t value = 7, *slot = &value;
    CHECK(call(map, buffer, room, &length, &value) == (fits ? SELLUMAQ_FOUND : SELLUMAQ_TOO_SMALL));
    CHECK(length == (fits ? wanted->length : from->length) && value == (fits ? wanted->value : wanted->length));
    CHECK(holds(buffer, room, fits ? wanted : from, from));
    free(buffer);
    buffer = begun(from, room);
    length = from->length, value = 7;
    CHECK(slots(map, buffer, room, &length, &slot) == (fits ? SELLUMAQ_FOUND : SELLUMAQ_TOO_SMALL));
    CHECK(length == (fits ? wanted->length : from->length) && (fits ? *slot == wanted->value : slot == &value && value == 7));
    CHECK(holds(buffer, room, fits ? wanted : from, from));
    free(buffer);
}

/* The same with no room but for the string, with a byte too few, with as many as wanted, with a few more, and with as
 * many as no key exceeds. */
static void search(scan *call, slot_scan *slots, const sellumaq_judysl *map, int at, int found) {
    const Row *from = &rows[at];
    if (found < 0) {
        uint8_t *buffer = begun(from, from->length);
        size_t length = from->length;
        uint64_t value = 7, *slot = &value;
        CHECK(call(map, buffer, length, &length, &value) == SELLUMAQ_NONE && slots(map, buffer, length, &length, &slot) == SELLUMAQ_NONE);
        CHECK(value == 7 && slot == &value && length == from->length && holds(buffer, length, from, from));
        free(buffer);
        return;
    }
    const Row *wanted = &rows[found];
    const size_t rooms[] = {from->length, wanted->length - (wanted->length > 0), wanted->length, wanted->length + 7, sellumaq_judysl_longest(map)};
    for (size_t each = 0; each < sizeof rooms / sizeof *rooms; each++)
        if (rooms[each] >= from->length) search_with(call, slots, map, from, wanted, rooms[each]);
}

static void compare_searches(const sellumaq_judysl *map, int at) {
    search(sellumaq_judysl_first, sellumaq_judysl_first_slot, map, at, next_held(at));
    search(sellumaq_judysl_next, sellumaq_judysl_next_slot, map, at, next_held(at + 1));
    search(sellumaq_judysl_last, sellumaq_judysl_last_slot, map, at, prev_held(at));
    search(sellumaq_judysl_prev, sellumaq_judysl_prev_slot, map, at, prev_held(at - 1));
}

/* The key at a place, with a byte too little room and with as much as it has. */
static void compare_places(const sellumaq_judysl *map, int at) {
    const Row *row = &rows[at], *first = &rows[0], *last = &rows[KEYS - 1];
    size_t up_to = held_count(0, at + 1), length = 7;
    uint64_t value = 7;
    CHECK(sellumaq_judysl_count(map, first->bytes, 0, row->bytes, row->length) == up_to);
    CHECK(sellumaq_judysl_count(map, row->bytes, row->length, last->bytes, last->length) == held_count(at, KEYS));
    if (!row->held) return;
    uint8_t *buffer = buffer_of(row->length);
    memset(buffer, TILDE, row->length);
    if (row->length) {
        CHECK(sellumaq_judysl_by_count(map, up_to, buffer, row->length - 1, &length, &value) == SELLUMAQ_TOO_SMALL);
        CHECK(length == 7 && value == row->length && buffer[0] == TILDE && buffer[row->length - 1] == TILDE);
    }
    CHECK(sellumaq_judysl_by_count(map, up_to, buffer, row->length, &length, &value) == SELLUMAQ_FOUND);
    CHECK(length == row->length && value == row->value && !memcmp(buffer, row->bytes, length));
    free(buffer);
}

static void compare_look_ups(const sellumaq_judysl *map, int at) {
    const Row *row = &rows[at];
    uint64_t value = 7, *slot = NULL;
    size_t prefix = 0;
    CHECK(sellumaq_judysl_get(map, row->bytes, row->length, &value) == row->held && value == (row->held ? row->value : 7));
    CHECK(sellumaq_judysl_slot(map, row->bytes, row->length, &slot) == row->held && (!row->held || *slot == row->value));
    if (row->held) CHECK(sellumaq_judysl_longest_prefix(map, row->bytes, row->length, &prefix, &value) && prefix == row->length && value == row->value);
    /* a byte less is a key of the map's in one case, where a key of 1,024 bytes begins one of 1,025 */
    bool begins = row->length == 1025 && row[-1].length == 1024 && !memcmp(row[-1].bytes, row->bytes, 1024);
    if (row->length) CHECK(sellumaq_judysl_get(map, row->bytes, row->length - 1, &value) == (begins && row[-1].held));
}

/* The walk from a row on, by pages of so much room and so many entries; a key that has no place ends a page. */
static void compare_walk(const sellumaq_judysl *map, int at, bool itself, size_t room, size_t capacity) {
    uint8_t *bytes = buffer_of(room);
    sellumaq_entry entries[KEYS];
    const Row *from = &rows[at];
    size_t told = sellumaq_judysl_walk(map, from->bytes, from->length, itself, bytes, room, entries, capacity), used = 0;
    int place = next_held(itself ? at : at + 1);
    for (size_t each = 0; each < told; each++, place = next_held(place + 1)) {
        CHECK(place >= 0 && entries[each].length == rows[place].length && entries[each].value == rows[place].value);
        CHECK(rows[place].length <= room - used && !memcmp(bytes + used, rows[place].bytes, rows[place].length));
        used += rows[place].length;
    }
    CHECK(told == capacity || place < 0 || rows[place].length > room - used);
    free(bytes);
}

static void compare_walks(const sellumaq_judysl *map, int at) {
    int first = next_held(at);
    size_t wanted = first < 0 ? 0 : rows[first].length;
    compare_walk(map, at, true, wanted - (wanted > 0), KEYS);
    compare_walk(map, at, true, wanted, KEYS);
    compare_walk(map, at, false, sellumaq_judysl_longest(map), 1);
    if (at % 4 == 0) compare_walk(map, at, true, 3 * LONGEST / 2, KEYS);
}

static void compare(const sellumaq_judysl *map) {
    CHECK(sellumaq_judysl_len(map) == held_count(0, KEYS));
    for (int at = 0; at < KEYS; at++) {
        compare_look_ups(map, at);
        compare_places(map, at);
    }
}

/* Puts each key in, by one of three calls, and takes some out, by one of two. */
static void change(sellumaq_judysl *map) {
    size_t longest = 0;
    for (int turn = 0; turn < KEYS; turn++) {
        Row *row = &rows[turn * 5 % KEYS];
        uint64_t was = 7, *slot = NULL;
        if (turn % 3 == 0) CHECK(sellumaq_judysl_put(map, row->bytes, row->length, row->value) == SELLUMAQ_ADDED);
        if (turn % 3 == 1) CHECK(sellumaq_judysl_insert(map, row->bytes, row->length, row->value, &was) == SELLUMAQ_ADDED && was == 7);
        if (turn % 3 == 2) CHECK(sellumaq_judysl_ins(map, row->bytes, row->length, &slot) == SELLUMAQ_FOUND && *slot == 0 && (*slot = row->value));
        CHECK(sellumaq_judysl_insert(map, row->bytes, row->length, row->value, &was) == SELLUMAQ_PRESENT && was == row->value);
        row->held = true;
        if (row->length > longest) longest = row->length;
        CHECK(sellumaq_judysl_longest(map) == longest);
    }
    compare(map);
    for (int at = 0; at < KEYS; at++) compare_searches(map, at), compare_walks(map, at);
    for (int at = 1; at < KEYS; at += 2) {
        uint64_t was = 7;
        CHECK(sellumaq_judysl_remove(map, rows[at].bytes, rows[at].length, &was) && was == rows[at].value);
        CHECK(!sellumaq_judysl_del(map, rows[at].bytes, rows[at].length));
        rows[at].held = false;
    }
    CHECK(sellumaq_judysl_longest(map) == longest);
    compare(map);
    for (int at = 0; at < KEYS; at += 3) compare_searches(map, at);
}

/* Says which keys a map has from now on: those from one place to another. */
static void hold(int from, int end) {
    for (int at = 0; at < KEYS; at++) rows[at].held = from <= at && at < end;
}

/* The map of a list of all keys. */
static void make_all(sellumaq_judysl *all) {
    size_t room = 0, used = 0, place = 77;
    sellumaq_entry entries[KEYS];
    for (int at = 0; at < KEYS; at++) room += rows[at].length;
    uint8_t *bytes = buffer_of(room);
    for (int at = 0; at < KEYS; used += rows[at++].length) {
        memcpy(bytes + used, rows[at].bytes, rows[at].length);
        entries[at] = (sellumaq_entry){rows[at].length, rows[at].value};
    }
    CHECK(sellumaq_judysl_from_sorted(all, bytes, room, entries, KEYS, &place) == SELLUMAQ_ADDED && place == 77);
    bytes[room - 1] = 0;
    CHECK(sellumaq_judysl_from_sorted(all, bytes, room, entries, KEYS, &place) == SELLUMAQ_BAD_KEY && place == KEYS - 1);
    free(bytes);
    hold(0, KEYS);
    compare(all);
    CHECK(sellumaq_judysl_longest(all) == LONGEST);
}

/* What is told of two maps, of which one has the keys that are held and the other all, and what is made of them. */
static void combine(const sellumaq_judysl *all, const sellumaq_judysl *some) {
    sellumaq_judysl made = {0};
    uint64_t count = held_count(0, KEYS);
    CHECK(sellumaq_judysl_intersection_count(all, some) == count && sellumaq_judysl_union_count(all, some) == KEYS);
    CHECK(sellumaq_judysl_difference_count(all, some) == KEYS - count && sellumaq_judysl_symmetric_difference_count(all, some) == KEYS - count);
    CHECK(sellumaq_judysl_is_subset(some, all) && !sellumaq_judysl_is_subset(all, some) && !sellumaq_judysl_has_same_keys(all, some));
    CHECK(sellumaq_judysl_intersection(&made, all, some) == SELLUMAQ_ADDED && sellumaq_judysl_has_same_keys(&made, some));
    compare(&made);
    for (int at = 0; at < KEYS; at++) rows[at].held = !rows[at].held;
    CHECK(sellumaq_judysl_difference(&made, all, some) == SELLUMAQ_ADDED && sellumaq_judysl_is_disjoint(&made, some));
    compare(&made);
    CHECK(sellumaq_judysl_symmetric_difference(&made, all, some) == SELLUMAQ_ADDED);
    compare(&made);
    hold(0, KEYS);
    CHECK(sellumaq_judysl_union(&made, some, all) == SELLUMAQ_ADDED);
    compare(&made);
    sellumaq_judysl_shrink(&made);
    compare(&made);
    CHECK(sellumaq_judysl_free(&made) == KEYS);
}

/* A copy, from which the keys from the fourth to the ninth go, and what begins with 1,024 bytes of 0xFF. */
static void make(void) {
    sellumaq_judysl all = {0}, some = {0};
    make_all(&all);
    CHECK(sellumaq_judysl_copy(&some, &all) == SELLUMAQ_ADDED);
    compare(&some);
    CHECK(sellumaq_judysl_remove_range(&some, rows[8].bytes, rows[8].length, rows[3].bytes, rows[3].length) == 0);
    CHECK(sellumaq_judysl_remove_range(&some, rows[3].bytes, rows[3].length, rows[8].bytes, rows[8].length) == 6);
    CHECK(sellumaq_judysl_remove_prefix(&some, rows[KEYS - 1].bytes, 1024) == 4);
    for (int at = 0; at < KEYS; at++) rows[at].held = (at < 3 || at > 8) && at < KEYS - 4;
    compare(&some);
    combine(&all, &some);
    CHECK(sellumaq_judysl_free(&all) == KEYS && sellumaq_judysl_free(&some) == KEYS - 10);
}

/* Lengths that no object has, and what the empty map says. */
static void edges(void) {
    sellumaq_judysl map = {0};
    uint64_t value = 7, *slot = NULL;
    size_t length = 0;
    uint8_t key[1] = {'k'};
    CHECK(sellumaq_judysl_longest(&map) == 0 && sellumaq_judysl_put(&map, key, 1, 5) == SELLUMAQ_ADDED && sellumaq_judysl_longest(&map) == 1);
    CHECK(sellumaq_judysl_first(&map, key, 0, &length, &value) == SELLUMAQ_TOO_SMALL && value == 1 && length == 0);
    CHECK(sellumaq_judysl_first_slot(&map, key, 0, &length, &slot) == SELLUMAQ_TOO_SMALL && slot == NULL && length == 0);
    CHECK(sellumaq_judysl_by_count(&map, 1, key, 0, &length, &value) == SELLUMAQ_TOO_SMALL && value == 1);
    CHECK(sellumaq_judysl_del(&map, key, 1) && sellumaq_judysl_longest(&map) == 0 && sellumaq_judysl_free(&map) == 0);
}

int main(int count, char **words) {
    sellumaq_judysl map = {0};
    if (count > 1) LONGEST = (size_t)atol(words[1]);
    make_rows();
    edges();
    change(&map);
    CHECK(sellumaq_judysl_free(&map) == held_count(0, KEYS) && sellumaq_judysl_longest(&map) == 0);
    make();
    for (int at = 0; at < KEYS; at++) free(rows[at].bytes);
    puts("long_strings: ok");
    return 0;
}
