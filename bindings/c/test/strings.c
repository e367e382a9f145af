/* The arrays over strings by Sellumaq's own names, beside a table of sorted strings, many of which begin alike. */
#include <string.h>

#include "../sellumaq.h"
#include "check.h"

enum { STRINGS = 256, LONGEST = 128, ROOM = 1024 };

/* The table's strings, in the order of their bytes. */
static uint8_t strings[STRINGS][LONGEST];
static bool held[STRINGS];
static uint64_t values[STRINGS];

static int before(const void *one, const void *other) { return strcmp(one, other); }

/* Each is four parts of four kinds, so that strings part at each depth. */
static void make_strings(void) {
    static const char *const parts[4] = {"", "a", "a common part", "\xff\xfe of more than a few bytes"};
    for (int place = 0; place < STRINGS; place++)
        for (int level = 0, rest = place; level < 4; level++, rest /= 4) strcat(strcat((char *)strings[place], level ? "-" : ""), parts[rest % 4]);
    qsort(strings, STRINGS, sizeof *strings, before);
}

static size_t length_of(int place) { return strlen((char *)strings[place]); }
static int next_held(int place) { for (; place < STRINGS; place++) if (held[place]) return place; return -1; }
static int prev_held(int place) { for (; place >= 0; place--) if (held[place]) return place; return -1; }

static uint64_t held_between(int from, int end) {
    uint64_t count = 0;
    for (int place = from; place < end; place++) count += held[place];
    return count;
}

static uint64_t count_held(void) { return held_between(0, STRINGS); }

typedef uint32_t scan(const sellumaq_judysl *map, uint8_t *buffer, size_t capacity, size_t *length, uint64_t *value);

/* Whether a scan from a string of the table answers another one, or, for -1, that there is none; and writes nothing but
 * that. */
static bool told(scan *call, sellumaq_judysl *map, int from, int place) {
    uint8_t buffer[LONGEST + 1];
    size_t length = length_of(from), found = place < 0 ? length : length_of(place);
    uint64_t value = 77;
    memset(buffer, '~', sizeof buffer);
    memcpy(buffer, strings[from], length);
    uint32_t answer = call(map, buffer, LONGEST, &length, &value);
    const uint8_t *wanted = strings[place < 0 ? from : place];
    if (answer != (place < 0 ? SELLUMAQ_NONE : SELLUMAQ_FOUND) || length != found || memcmp(buffer, wanted, length)) return false;
    if (buffer[LONGEST] != '~' || value != (place < 0 ? 77 : values[place])) return false;
    if (place < 0 || length_of(place) <= length_of(from)) return true;
    memcpy(buffer, strings[from], length = length_of(from));
    if (call(map, buffer, found - 1, &length, &value) != SELLUMAQ_TOO_SMALL || value != found) return false;
    return length == length_of(from) && !memcmp(buffer, strings[from], length);
}

/* What stands in a buffer that any key fits: a string of the table, and behind it other bytes. A scan leaves the key
 * that it finds, and behind that what was there. */
static void begin_with(uint8_t *buffer, int place) {
    memset(buffer, '~', ROOM);
    memcpy(buffer, strings[place], length_of(place));
}

static bool holds(const uint8_t *buffer, size_t length, int from, int place) {
    uint8_t wanted[ROOM];
    begin_with(wanted, from);
    if (place >= 0) memcpy(wanted, strings[place], length_of(place));
    return length == length_of(place < 0 ? from : place) && !memcmp(buffer, wanted, sizeof wanted);
}

static bool told_in_place(scan *call, sellumaq_judysl *map, int from, int place) {
    uint8_t buffer[ROOM];
    size_t length = length_of(from);
    uint64_t value = 77;
    begin_with(buffer, from);
    uint32_t answer = call(map, buffer, sizeof buffer, &length, &value);
    return answer == (place < 0 ? SELLUMAQ_NONE : SELLUMAQ_FOUND) && value == (place < 0 ? 77 : values[place]) && holds(buffer, length, from, place);
}

typedef uint32_t slot_scan(const sellumaq_judysl *map, uint8_t *buffer, size_t capacity, size_t *length, uint64_t **slot);

/* The same of a scan that hands out a slot; where it does, another value is left there, which is the key's then. */
static bool lent(slot_scan *call, sellumaq_judysl *map, int from, int place) {
    uint8_t buffer[LONGEST + 1];
    size_t length = length_of(from), found = place < 0 ? length : length_of(place);
    uint64_t own = 77, *slot = &own, value = 0;
    memset(buffer, '~', sizeof buffer);
    memcpy(buffer, strings[from], length);
    uint32_t answer = call(map, buffer, LONGEST, &length, &slot);
    if (length != found || memcmp(buffer, strings[place < 0 ? from : place], length) || buffer[LONGEST] != '~') return false;
    if (place < 0) return answer == SELLUMAQ_NONE && slot == &own;
    if (answer != SELLUMAQ_FOUND || slot == &own || *slot != values[place]) return false;
    values[place] = *slot = 3 * *slot + 1;
    if (!sellumaq_judysl_get(map, strings[place], found, &value) || value != values[place]) return false;
    if (found <= length_of(from)) return true;
    memcpy(buffer, strings[from], length = length_of(from));
    slot = &own;
    return call(map, buffer, found - 1, &length, &slot) == SELLUMAQ_TOO_SMALL && slot == &own && length == length_of(from) && !memcmp(buffer, strings[from], length);
}

static bool lent_in_place(slot_scan *call, sellumaq_judysl *map, int from, int place) {
    uint8_t buffer[ROOM];
    size_t length = length_of(from);
    uint64_t own = 77, *slot = &own;
    begin_with(buffer, from);
    uint32_t answer = call(map, buffer, sizeof buffer, &length, &slot);
    if (answer != (place < 0 ? SELLUMAQ_NONE : SELLUMAQ_FOUND) || !holds(buffer, length, from, place)) return false;
    return place < 0 ? slot == &own : slot != &own && *slot == values[place];
}

/* Whether the n-th key is the one at a place, or there is none for -1; and nothing is written but that. */
static bool is_nth(const sellumaq_judysl *map, uint64_t n, int place) {
    uint8_t buffer[LONGEST + 1];
    size_t length = 77;
    uint64_t value = 77;
    memset(buffer, '~', sizeof buffer);
    uint32_t answer = sellumaq_judysl_by_count(map, n, buffer, LONGEST, &length, &value);
    if (place < 0) return answer == SELLUMAQ_NONE && length == 77 && value == 77 && buffer[0] == '~';
    if (answer != SELLUMAQ_FOUND || length != length_of(place) || memcmp(buffer, strings[place], length) || value != values[place]) return false;
    if (buffer[LONGEST] != '~') return false;
    length = value = 77;
    return sellumaq_judysl_by_count(map, n, buffer, length_of(place) - 1, &length, &value) == SELLUMAQ_TOO_SMALL && length == 77 && value == length_of(place);
}

/* Counts from a string of the table and up to it, and the key that a count gives back. */
static void compare_counts(const sellumaq_judysl *map, int place) {
    const uint8_t *from = strings[place], *last = strings[STRINGS - 1];
    size_t length = length_of(place), last_length = length_of(STRINGS - 1);
    uint64_t up_to = sellumaq_judysl_count(map, from, 0, from, length);
    CHECK(up_to == held_between(0, place + 1));
    CHECK(sellumaq_judysl_count(map, from, length, last, last_length) == held_between(place, STRINGS));
    CHECK(sellumaq_judysl_count(map, last, last_length, from, length) == (place == STRINGS - 1 ? held[place] : 0));
    CHECK(is_nth(map, up_to, prev_held(place)) && is_nth(map, up_to + 1, next_held(place + 1)) && is_nth(map, 0, -1));
}

static void compare(sellumaq_judysl *map, int place) {
    uint64_t value = 0, *slot = NULL;
    CHECK(sellumaq_judysl_get(map, strings[place], length_of(place), &value) == held[place] && (!held[place] || value == values[place]));
    CHECK(sellumaq_judysl_slot(map, strings[place], length_of(place), &slot) == held[place] && (!held[place] || *slot == values[place]));
    CHECK(told(sellumaq_judysl_first, map, place, next_held(place)) && told_in_place(sellumaq_judysl_first, map, place, next_held(place)));
    CHECK(told(sellumaq_judysl_next, map, place, next_held(place + 1)) && told_in_place(sellumaq_judysl_next, map, place, next_held(place + 1)));
    CHECK(told(sellumaq_judysl_last, map, place, prev_held(place)) && told_in_place(sellumaq_judysl_last, map, place, prev_held(place)));
    CHECK(told(sellumaq_judysl_prev, map, place, prev_held(place - 1)) && told_in_place(sellumaq_judysl_prev, map, place, prev_held(place - 1)));
    CHECK(lent(sellumaq_judysl_first_slot, map, place, next_held(place)) && lent_in_place(sellumaq_judysl_first_slot, map, place, next_held(place)));
    CHECK(lent(sellumaq_judysl_next_slot, map, place, next_held(place + 1)) && lent_in_place(sellumaq_judysl_next_slot, map, place, next_held(place + 1)));
    CHECK(lent(sellumaq_judysl_last_slot, map, place, prev_held(place)) && lent_in_place(sellumaq_judysl_last_slot, map, place, prev_held(place)));
    CHECK(lent(sellumaq_judysl_prev_slot, map, place, prev_held(place - 1)) && lent_in_place(sellumaq_judysl_prev_slot, map, place, prev_held(place - 1)));
    CHECK(sellumaq_judysl_len(map) == count_held());
}

/* Bytes that are no key, keys of more than 1,024 bytes, and an empty map. */
static void edges(sellumaq_judysl *map) {
    enum { LONG = 1500 };
    uint8_t key[LONG + 1], zero[3] = {'a', 0, 'b'};
    uint64_t value = 7, *slot = NULL;
    size_t length = 0;
    memset(key, 0xff, sizeof key);
    CHECK(sellumaq_judysl_ins(map, zero, 3, &slot) == SELLUMAQ_BAD_KEY && slot == NULL && map->array == NULL);
    CHECK(sellumaq_judysl_next(map, key, sizeof key, &length, &value) == SELLUMAQ_NONE);
    CHECK(sellumaq_judysl_next_slot(map, key, sizeof key, &length, &slot) == SELLUMAQ_NONE && slot == NULL && map->array == NULL);
    CHECK(sellumaq_judysl_ins(map, key, LONG, &slot) == SELLUMAQ_FOUND && *slot == 0);
    *slot = 5;
    CHECK(sellumaq_judysl_ins(map, zero, 0, &slot) == SELLUMAQ_FOUND && sellumaq_judysl_ins(map, zero, 3, &slot) == SELLUMAQ_BAD_KEY);
    CHECK(!sellumaq_judysl_get(map, zero, 3, &value) && !sellumaq_judysl_slot(map, key, sizeof key, &slot) && !sellumaq_judysl_del(map, zero, 3));
    length = 3;
    slot = NULL;
    CHECK(sellumaq_judysl_first(map, zero, 3, &length, &value) == SELLUMAQ_BAD_KEY);
    CHECK(sellumaq_judysl_first_slot(map, zero, 3, &length, &slot) == SELLUMAQ_BAD_KEY && slot == NULL && length == 3);
    length = 4;
    CHECK(sellumaq_judysl_last_slot(map, zero, 3, &length, &slot) == SELLUMAQ_BAD_KEY && slot == NULL && length == 4);
    CHECK(sellumaq_judysl_first(map, zero, 3, &length, &value) == SELLUMAQ_BAD_KEY && length == 4);
    CHECK(sellumaq_judysl_last(map, key, 3, &length, &value) == SELLUMAQ_BAD_KEY && length == 4 && value == 7);
    length = sizeof key;
    CHECK(sellumaq_judysl_first(map, key, sizeof key, &length, &value) == SELLUMAQ_NONE && length == sizeof key && value == 7);
    CHECK(sellumaq_judysl_last(map, key, sizeof key, &length, &value) == SELLUMAQ_FOUND && length == LONG && value == 5);
    CHECK(sellumaq_judysl_last_slot(map, key, LONG, &length, &slot) == SELLUMAQ_FOUND && length == LONG && *slot == 5);
    CHECK(sellumaq_judysl_prev(map, key, sizeof key, &length, &value) == SELLUMAQ_FOUND && length == 0 && value == 0);
    CHECK(sellumaq_judysl_count(map, zero, 0, key, LONG) == 2 && sellumaq_judysl_count(map, key, LONG, zero, 0) == 0);
    CHECK(sellumaq_judysl_count(map, zero, 3, key, LONG) == 0 && sellumaq_judysl_count(map, zero, 0, zero, 3) == 0);
    CHECK(sellumaq_judysl_count(map, zero, 0, key, sizeof key) == 2 && sellumaq_judysl_count(map, key, sizeof key, key, sizeof key) == 0);
    CHECK(sellumaq_judysl_by_count(map, 2, key, sizeof key, &length, &value) == SELLUMAQ_FOUND && length == LONG && value == 5);
    CHECK(sellumaq_judysl_by_count(map, 1, zero, 0, &length, &value) == SELLUMAQ_FOUND && length == 0 && value == 0);
    CHECK(sellumaq_judysl_free(map) == 2);
}

int main(void) {
    sellumaq_judysl map = {0};
    make_strings();
    edges(&map);
    compare(&map, 5);
    compare_counts(&map, 5);
    CHECK(map.array == NULL && !sellumaq_judysl_del(&map, strings[3], length_of(3)));
    for (int turn = 0; turn < 20000; turn++) {
        int place = (int)(any() % STRINGS);
        size_t length = length_of(place);
        uint64_t *slot = NULL;
        if (any() % 8 < (turn % 4000 < 2000 ? 5 : 3)) {
            CHECK(sellumaq_judysl_ins(&map, strings[place], length, &slot) == SELLUMAQ_FOUND && *slot == (held[place] ? values[place] : 0));
            held[place] = true;
            values[place] = *slot = any();
        } else {
            CHECK(sellumaq_judysl_del(&map, strings[place], length) == held[place]);
            held[place] = false;
        }
        compare(&map, (int)(any() % STRINGS));
        if (turn % 16 == 0) compare_counts(&map, (int)(any() % STRINGS));
    }
    uint64_t left = count_held();
    CHECK(sellumaq_judysl_free(&map) == left && sellumaq_judysl_free(&map) == 0);
    puts("strings: ok");
    return 0;
}
