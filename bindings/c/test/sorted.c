/* Arrays made at once of keys that ascend. */
#include "../sellumaq.h"
#include "check.h"

#include <string.h>

enum { KEYS = 5000 };

static uint64_t keys[KEYS];
static sellumaq_pair pairs[KEYS];

/* Keys of a pattern, each above the one before it: dense ones, and ever more distant ones. */
static void make_keys(unsigned spread) {
    uint64_t key = any() >> 20;
    for (size_t at = 0; at < KEYS; at++) {
        keys[at] = key;
        pairs[at] = (sellumaq_pair){ key, any() };
        key += 1 + (any() & ((UINT64_C(1) << spread) - 1));
    }
}

/* Whether walks down from the greatest word, by pages of so many keys, tell the first keys, and nothing else. */
static void compare_down(const sellumaq_judy1 *set, const sellumaq_judyl *map, size_t count, size_t page) {
    static uint64_t walked[KEYS];
    static sellumaq_pair told[KEYS];
    uint64_t from = UINT64_MAX;
    size_t many = page;
    while (many == page) {
        many = count < page ? count : page;
        CHECK(sellumaq_judy1_walk_down(set, from, walked, page) == many && sellumaq_judyl_walk_down(map, from, told, page) == many);
        for (size_t at = 0; at < many; at++, count--)
            CHECK(walked[at] == keys[count - 1] && told[at].key == keys[count - 1] && told[at].value == pairs[count - 1].value);
        if (many > 0) from = walked[many - 1] - 1;
        if (count == 0 && from == UINT64_MAX) return;
    }
    CHECK(count == 0);
}

/* Whether the arrays have the first keys, and nothing else. */
static void compare(const sellumaq_judy1 *set, const sellumaq_judyl *map, size_t count) {
    static uint64_t walked[KEYS + 1];
    static sellumaq_pair told[KEYS + 1];
    CHECK(sellumaq_judy1_len(set) == count && sellumaq_judyl_len(map) == count);
    CHECK(sellumaq_judy1_walk(set, 0, walked, KEYS + 1) == count && sellumaq_judyl_walk(map, 0, told, KEYS + 1) == count);
    for (size_t at = 0; at < count; at++)
        CHECK(walked[at] == keys[at] && told[at].key == keys[at] && told[at].value == pairs[at].value);
    static const size_t pages[] = { 1, 2, 64, 1000, KEYS };
    for (size_t at = 0; at < sizeof pages / sizeof *pages; at++)
        if (count <= 200 * pages[at]) compare_down(set, map, count, pages[at]);
}

/* Arrays made at once can be changed like any other. */
static void change(sellumaq_judy1 *set, sellumaq_judyl *map, size_t count) {
    for (size_t at = 0; at < count; at++) {
        uint64_t was = 0;
        CHECK(sellumaq_judy1_set(set, keys[at]) == SELLUMAQ_PRESENT && sellumaq_judyl_remove(map, keys[at], &was) && was == pairs[at].value);
        CHECK(sellumaq_judyl_put(map, keys[at], was) == SELLUMAQ_ADDED && sellumaq_judy1_unset(set, keys[at]));
        CHECK(sellumaq_judy1_set(set, keys[at]) == SELLUMAQ_ADDED);
    }
}

/* A key that isn't above the one before it is told by its place, and the arrays are as they were. */
static void refuse(sellumaq_judy1 *set, sellumaq_judyl *map, size_t count) {
    size_t at = 1 + any() % (count - 1), place = 977, other = 977;
    uint64_t kept = keys[at];
    keys[at] = pairs[at].key = any() % 2 ? keys[at - 1] : keys[any() % at];
    CHECK(sellumaq_judy1_from_sorted(set, keys, count, &place) == SELLUMAQ_BAD_KEY && place == at);
    CHECK(sellumaq_judyl_from_sorted(map, pairs, count, &other) == SELLUMAQ_BAD_KEY && other == at);
    keys[at] = pairs[at].key = kept;
    compare(set, map, count);
}

enum { STRINGS = 800, BYTES = STRINGS * 40 };

static uint8_t bytes[BYTES], told_bytes[BYTES];
static sellumaq_entry entries[STRINGS], told_entries[STRINGS + 1];

/* Strings that ascend: numbers of eight digits with some bytes before and behind them, of which many begin alike. The
 * answer is how many bytes they have. */
static size_t make_strings(int front, int behind) {
    size_t used = 0;
    for (size_t at = 0; at < STRINGS; at++) {
        char text[64];
        int length = snprintf(text, sizeof text, "%.*s%08zu%.*s", front, "the very same beginning", at * at + 1, behind, "and an end");
        memcpy(bytes + used, text, (size_t)length);
        entries[at] = (sellumaq_entry){ (size_t)length, any() };
        used += (size_t)length;
    }
    return used;
}

/* Whether a map has the first strings, and nothing else. */
static void compare_strings(const sellumaq_judysl *map, size_t count) {
    size_t used = 0;
    CHECK(sellumaq_judysl_len(map) == count);
    CHECK(sellumaq_judysl_walk(map, bytes, 0, true, told_bytes, BYTES, told_entries, STRINGS + 1) == count);
    for (size_t at = 0; at < count; at++) {
        CHECK(told_entries[at].length == entries[at].length && told_entries[at].value == entries[at].value);
        used += entries[at].length;
    }
    CHECK(memcmp(bytes, told_bytes, used) == 0);
}

/* Where a string begins. */
static uint8_t *string_at(size_t place) {
    uint8_t *begin = bytes;
    for (size_t at = 0; at < place; at++) begin += entries[at].length;
    return begin;
}

/* A string that doesn't fit is told by its place, and the map is as it was. */
static void refuse_strings(sellumaq_judysl *map, size_t used) {
    size_t place = 977, at = 1 + any() % (STRINGS - 1), length = entries[at].length;
    CHECK(sellumaq_judysl_from_sorted(map, bytes, used - 1, entries, STRINGS, &place) == SELLUMAQ_BAD_KEY && place == STRINGS - 1);
    uint8_t *string = string_at(at), kept[64];
    memcpy(kept, string, length);
    string[length - 1] = 0;
    CHECK(sellumaq_judysl_from_sorted(map, bytes, used, entries, STRINGS, &place) == SELLUMAQ_BAD_KEY && place == at);
    memcpy(string, string_at(at - 1), length);
    CHECK(sellumaq_judysl_from_sorted(map, bytes, used, entries, STRINGS, &place) == SELLUMAQ_BAD_KEY && place == at);
    memcpy(string, kept, length);
    compare_strings(map, STRINGS);
}

static void try_strings(void) {
    sellumaq_judysl map = {0};
    for (int front = 0; front <= 20; front += 5) {
        size_t used = make_strings(front, front / 2), place = 977, length = entries[STRINGS - 1].length;
        for (size_t count = 0; count <= STRINGS; count = count < 10 ? count + 1 : count * 2) {
            CHECK(sellumaq_judysl_from_sorted(&map, bytes, used, entries, count, &place) == SELLUMAQ_ADDED && place == 977);
            compare_strings(&map, count);
        }
        CHECK(sellumaq_judysl_from_sorted(&map, bytes, used, entries, STRINGS, &place) == SELLUMAQ_ADDED);
        CHECK(sellumaq_judysl_count(&map, bytes, 0, string_at(STRINGS - 1), length) == STRINGS);
        refuse_strings(&map, used);
        CHECK(sellumaq_judysl_del(&map, bytes, entries[0].length) && sellumaq_judysl_len(&map) == STRINGS - 1);
    }
    sellumaq_judysl_free(&map);
}

int main(void) {
    try_strings();
    sellumaq_judy1 set = {0};
    sellumaq_judyl map = {0};
    for (unsigned spread = 0; spread < 44; spread++) {
        make_keys(spread);
        for (size_t count = 0; count <= KEYS; count = count < 40 ? count + 1 : count * 3) {
            size_t place = 977;
            CHECK(sellumaq_judy1_from_sorted(&set, keys, count, &place) == SELLUMAQ_ADDED);
            CHECK(sellumaq_judyl_from_sorted(&map, pairs, count, &place) == SELLUMAQ_ADDED && place == 977);
            compare(&set, &map, count);
            if (count < 2) continue;
            refuse(&set, &map, count);
            change(&set, &map, count);
            compare(&set, &map, count);
        }
    }
    sellumaq_judy1_free(&set);
    sellumaq_judyl_free(&map);
    puts("sorted: ok");
    return 0;
}
