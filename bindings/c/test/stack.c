/* How much stack the calls take: arrays of each kind are filled, read and emptied on a thread whose stack is painted
 * first. What is no longer paint was used. */
#define _GNU_SOURCE
#include "../sellumaq.h"
#include "check.h"
#include <pthread.h>
#include <string.h>

/* What the manual page says that a call takes at most. */
enum { MOST = 9 << 10 };

enum { KEYS = 100000, PAGE = 1000, LONGEST = 3000, STRINGS = 2000, FAR = 1 << 20, STACK = 1 << 20 };

static _Alignas(4096) unsigned char stack[STACK];
static uint64_t keys[KEYS];
static sellumaq_pair pairs[KEYS];
static sellumaq_found found[PAGE];
static uint8_t text[LONGEST], bytes[PAGE * LONGEST];
static sellumaq_entry entries[PAGE];

static void *nothing(void *dense) { return dense; }

static uint64_t word(size_t at, const void *dense) { return dense ? at : any(); }

static void *sets(void *dense) {
    sellumaq_judy1 set = {0}, made = {0};
    uint64_t key;
    size_t place;
    for (size_t at = 0; at < KEYS; at++) CHECK(sellumaq_judy1_set(&set, word(at, dense)) == SELLUMAQ_ADDED);
    CHECK(sellumaq_judy1_walk_down(&set, UINT64_MAX, keys, KEYS) == KEYS);
    CHECK(sellumaq_judy1_walk(&set, 0, keys, KEYS) == KEYS && sellumaq_judy1_from_sorted(&made, keys, KEYS, &place) == SELLUMAQ_ADDED);
    for (size_t at = 0; at < PAGE; at++) {
        CHECK(sellumaq_judy1_test(&set, keys[at]) && sellumaq_judy1_by_count(&set, at + 1, &key) && sellumaq_judy1_count(&set, 0, key) == at + 1);
        CHECK(sellumaq_judy1_next(&set, keys[at], &key) && sellumaq_judy1_prev(&set, keys[at + 1], &key));
        CHECK(sellumaq_judy1_next_empty(&set, keys[at], &key) && (dense || sellumaq_judy1_prev_empty(&set, keys[at], &key)));
    }
    for (size_t at = 0; at < KEYS - PAGE; at++) CHECK(sellumaq_judy1_unset(&set, keys[at]));
    CHECK(sellumaq_judy1_free(&set) == PAGE && sellumaq_judy1_free(&made) == KEYS);
    return NULL;
}

static void *maps(void *dense) {
    sellumaq_judyl map = {0}, made = {0};
    uint64_t key, value, *slot;
    size_t place;
    for (size_t at = 0; at < KEYS; at++) CHECK(sellumaq_judyl_put(&map, word(at, dense), at) == SELLUMAQ_ADDED);
    CHECK(sellumaq_judyl_walk_down(&map, UINT64_MAX, pairs, KEYS) == KEYS);
    CHECK(sellumaq_judyl_walk(&map, 0, pairs, KEYS) == KEYS && sellumaq_judyl_from_sorted(&made, pairs, KEYS, &place) == SELLUMAQ_ADDED);
    for (size_t at = 0; at < KEYS; at++) keys[at] = pairs[at].key;
    CHECK(sellumaq_judyl_get_many(&map, keys, PAGE, found, PAGE) == PAGE);
    for (size_t at = 0; at < PAGE; at++) {
        CHECK(sellumaq_judyl_get(&map, keys[at], &value) && sellumaq_judyl_slot(&map, keys[at], &slot) && sellumaq_judyl_ins(&map, keys[at], &slot));
        CHECK(sellumaq_judyl_by_count(&map, at + 1, &key) && sellumaq_judyl_count(&map, 0, key) == at + 1);
        CHECK(sellumaq_judyl_next_entry(&map, keys[at], &key, &value) && sellumaq_judyl_prev_entry(&map, keys[at + 1], &key, &value));
        CHECK(sellumaq_judyl_next_empty(&map, keys[at], &key) && sellumaq_judyl_insert(&map, keys[at], at, &value) == SELLUMAQ_PRESENT);
    }
    for (size_t at = 0; at < KEYS - PAGE; at++) CHECK(sellumaq_judyl_remove(&map, keys[at], &value));
    CHECK(sellumaq_judyl_free(&map) == PAGE && sellumaq_judyl_free(&made) == KEYS);
    return NULL;
}

/* Writes a string to the text: of up to 40 bytes, or as long as can be, which then begins as all others do. Answers how
 * long it is. */
static size_t string(const void *longest) {
    size_t length = longest ? LONGEST : 1 + any() % 40;
    for (size_t at = 0; at < length; at++) text[at] = longest && at < LONGEST - 24 ? 'a' : 1 + any() % 255;
    return length;
}

/* The nearest keys to the one that stands in the text. */
static void look_around(const sellumaq_judysl *map, size_t length) {
    uint64_t value, *slot;
    size_t there = length;
    CHECK(sellumaq_judysl_first(map, text, LONGEST, &length, &value) == SELLUMAQ_FOUND && length == there);
    CHECK(sellumaq_judysl_last(map, text, LONGEST, &length, &value) == SELLUMAQ_FOUND && length == there);
    CHECK(sellumaq_judysl_first_slot(map, text, LONGEST, &length, &slot) == SELLUMAQ_FOUND && length == there);
    CHECK(sellumaq_judysl_last_slot(map, text, LONGEST, &length, &slot) == SELLUMAQ_FOUND && length == there);
    CHECK(sellumaq_judysl_next(map, text, LONGEST, &length, &value) <= SELLUMAQ_FOUND);
    CHECK(sellumaq_judysl_prev_slot(map, text, LONGEST, &length, &slot) <= SELLUMAQ_FOUND);
    CHECK(sellumaq_judysl_prev(map, text, LONGEST, &length, &value) <= SELLUMAQ_FOUND);
    CHECK(sellumaq_judysl_next_slot(map, text, LONGEST, &length, &slot) <= SELLUMAQ_FOUND);
}

/* Two keys of a megabyte that share all but the last byte, in a map of others. */
static void go_far(sellumaq_judysl *map) {
    static uint8_t far[FAR];
    uint64_t value;
    size_t length = FAR;
    memset(far, 'f', FAR);
    for (int end = 'a'; end < 'c'; end++) {
        far[FAR - 1] = (uint8_t)end;
        CHECK(sellumaq_judysl_put(map, far, FAR, 1) == SELLUMAQ_ADDED && sellumaq_judysl_get(map, far, FAR, &value));
        CHECK(sellumaq_judysl_last(map, far, FAR, &length, &value) == SELLUMAQ_FOUND && length == FAR);
    }
    CHECK(sellumaq_judysl_prev(map, far, FAR, &length, &value) == SELLUMAQ_FOUND && length == FAR && far[FAR - 1] == 'a');
    CHECK(sellumaq_judysl_count(map, far, FAR, far, FAR) == 1 && sellumaq_judysl_del(map, far, FAR));
    CHECK(sellumaq_judysl_remove_prefix(map, far, FAR - 1) == 1);
}

static void *strings(void *longest) {
    sellumaq_judysl map = {0};
    uint64_t value, *slot;
    size_t length;
    for (size_t at = 0; at < STRINGS; at++) {
        length = string(longest);
        CHECK(sellumaq_judysl_put(&map, text, length, at) <= SELLUMAQ_ADDED && sellumaq_judysl_get(&map, text, length, &value));
        CHECK(sellumaq_judysl_ins(&map, text, length, &slot) == SELLUMAQ_FOUND && sellumaq_judysl_slot(&map, text, length, &slot));
        CHECK(sellumaq_judysl_insert(&map, text, length, at, &value) == SELLUMAQ_PRESENT);
        look_around(&map, length);
    }
    length = 0;
    CHECK(sellumaq_judysl_by_count(&map, PAGE, text, LONGEST, &length, &value) == SELLUMAQ_FOUND);
    CHECK(sellumaq_judysl_count(&map, NULL, 0, text, length) == PAGE);
    while (sellumaq_judysl_len(&map) > PAGE) {
        length = 0;
        CHECK(sellumaq_judysl_first(&map, text, LONGEST, &length, &value) == SELLUMAQ_FOUND && sellumaq_judysl_del(&map, text, length));
    }
    CHECK(sellumaq_judysl_walk(&map, NULL, 0, true, bytes, sizeof bytes, entries, PAGE) == PAGE);
    go_far(&map);
    CHECK(sellumaq_judysl_free(&map) == PAGE);
    return NULL;
}

static void *byte_strings(void *longest) {
    sellumaq_judyhs map = {0};
    uint64_t value, *slot;
    size_t count;
    for (size_t at = 0; at < STRINGS; at++) {
        size_t length = string(longest);
        CHECK(sellumaq_judyhs_put(&map, text, length, at) <= SELLUMAQ_ADDED && sellumaq_judyhs_get(&map, text, length, &value));
        CHECK(sellumaq_judyhs_ins(&map, text, length, &slot) == SELLUMAQ_FOUND && sellumaq_judyhs_slot(&map, text, length, &slot));
        CHECK(sellumaq_judyhs_insert(&map, text, length, at, &value) == SELLUMAQ_PRESENT);
        CHECK(at % 2 || sellumaq_judyhs_del(&map, text, length));
    }
    CHECK(sellumaq_judyhs_walk(&map, 0, bytes, sizeof bytes, entries, PAGE, &count) && count > 0 && sellumaq_judyhs_free(&map) > 0);
    return NULL;
}

/* How many bytes of the stack a thread takes that does this. */
static size_t taken(void *(*act)(void *), int dense) {
    pthread_attr_t attributes;
    pthread_t thread;
    size_t left = 0;
    memset(stack, 0xA5, STACK);
    CHECK(!pthread_attr_init(&attributes) && !pthread_attr_setstack(&attributes, stack, STACK));
    CHECK(!pthread_create(&thread, &attributes, act, dense ? "dense" : NULL) && !pthread_join(thread, NULL));
    while (stack[left] == 0xA5) left++;
    return STACK - left;
}

int main(void) {
    size_t idle = taken(nothing, 0);
    for (int dense = 0; dense < 2; dense++) {
        CHECK(taken(sets, dense) - idle <= MOST);
        CHECK(taken(maps, dense) - idle <= MOST);
        CHECK(taken(strings, dense) - idle <= MOST);
        CHECK(taken(byte_strings, dense) - idle <= MOST);
    }
    return 0;
}
