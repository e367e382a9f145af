/* What is told of two maps of strings, what is made of them, copies, and ranges and beginnings that go, beside what a
 * look-up of each key tells. Memory is refused at each call for it. */
#include <string.h>

#include "../sellumaq.h"
#include "check.h"
#include "refusing.h"

enum { MOST_KEYS = 400, LONGEST = 1024 };

/* A string of a number: of some a few beginnings are shared, and some are long. */
static size_t write_key(uint64_t number, uint8_t *key) {
    size_t shared = number % 5 * 9;
    memset(key, 'a' + (int)(number % 3), shared);
    size_t length = shared;
    for (uint64_t left = number; left > 0; left >>= 6) key[length++] = (uint8_t)('0' + left % 64);
    return length;
}

static void fill(sellumaq_judysl *map, size_t count, unsigned bits) {
    uint8_t key[LONGEST];
    for (size_t at = 0; at < count; at++) {
        size_t length = write_key(any() >> (64 - bits), key);
        CHECK(sellumaq_judysl_put(map, key, length, any()) <= SELLUMAQ_ADDED);
    }
    if (count > 9) {
        memset(key, 255, sizeof key);
        CHECK(sellumaq_judysl_put(map, key, sizeof key, any()) <= SELLUMAQ_ADDED);
    }
}

/* A way through a map; the key given last is `bytes`. */
typedef struct {
    const sellumaq_judysl *map;
    uint8_t bytes[LONGEST];
    size_t length;
    uint64_t value;
    bool begun;
} way;

static bool next(way *way) {
    uint32_t (*step)(const sellumaq_judysl *, uint8_t *, size_t, size_t *, uint64_t *) = way->begun ? sellumaq_judysl_next : sellumaq_judysl_first;
    way->begun = true;
    return step(way->map, way->bytes, sizeof way->bytes, &way->length, &way->value) == SELLUMAQ_FOUND;
}

static bool has(const sellumaq_judysl *map, const way *way, uint64_t *value) { return sellumaq_judysl_get(map, way->bytes, way->length, value); }

/* Whether two maps have the same keys with the same values. */
static bool is_same(const sellumaq_judysl *one, const sellumaq_judysl *other) {
    way way = { .map = one };
    uint64_t value;
    while (next(&way))
        if (!has(other, &way, &value) || value != way.value) return false;
    return sellumaq_judysl_len(one) == sellumaq_judysl_len(other);
}

/* Compares what the calls tell of two maps with look-ups. */
static void compare(const sellumaq_judysl *one, const sellumaq_judysl *other) {
    uint64_t ours = sellumaq_judysl_len(one), theirs = sellumaq_judysl_len(other), common = 0, value;
    way way = { .map = one };
    while (next(&way)) common += has(other, &way, &value);
    CHECK(sellumaq_judysl_intersection_count(one, other) == common && sellumaq_judysl_union_count(one, other) == ours + theirs - common);
    CHECK(sellumaq_judysl_difference_count(one, other) == ours - common);
    CHECK(sellumaq_judysl_symmetric_difference_count(one, other) == ours + theirs - 2 * common);
    CHECK(sellumaq_judysl_is_subset(one, other) == (common == ours) && sellumaq_judysl_is_disjoint(one, other) == (common == 0));
    CHECK(sellumaq_judysl_has_same_keys(one, other) == (common == ours && ours == theirs));
}

typedef uint32_t of_maps(sellumaq_judysl *, const sellumaq_judysl *, const sellumaq_judysl *);

static uint32_t copy(sellumaq_judysl *made, const sellumaq_judysl *one, const sellumaq_judysl *other) {
    (void)other;
    return sellumaq_judysl_copy(made, one);
}

/* Whether a result has a key, by whether the one and the other have it. */
typedef bool keeps(bool one, bool other);
static bool in_union(bool one, bool other) { return one || other; }
static bool in_intersection(bool one, bool other) { return one && other; }
static bool in_difference(bool one, bool other) { return one && !other; }
static bool in_symmetric_difference(bool one, bool other) { return one != other; }
static bool in_copy(bool one, bool other) {
    (void)other;
    return one;
}

static const struct {
    of_maps *call;
    keeps *keeps;
} operations[] = {
    { sellumaq_judysl_union, in_union },
    { sellumaq_judysl_intersection, in_intersection },
    { sellumaq_judysl_difference, in_difference },
    { sellumaq_judysl_symmetric_difference, in_symmetric_difference },
    { copy, in_copy },
};

/* Compares a result with look-ups: its values are the one's, where that has the key. */
static void compare_made(keeps *keeps, const sellumaq_judysl *one, const sellumaq_judysl *other, const sellumaq_judysl *made) {
    uint64_t count = 0, value, wanted;
    way way = { .map = one };
    while (next(&way)) {
        bool kept = keeps(true, has(other, &way, &wanted));
        CHECK(has(made, &way, &value) == kept && (!kept || value == way.value));
        count += kept;
    }
    way.map = other;
    for (way.begun = false, way.length = 0; next(&way);) {
        if (has(one, &way, &wanted)) continue;
        bool kept = keeps(false, true);
        CHECK(has(made, &way, &value) == kept && (!kept || value == way.value));
        count += kept;
    }
    CHECK(sellumaq_judysl_len(made) == count);
}

/* Makes each result in place of what a map holds, with the first call for memory refused and each later one, then the
 * second, and so on. */
static void make(const sellumaq_judysl *one, const sellumaq_judysl *other, bool refuse) {
    for (size_t at = 0; at < sizeof operations / sizeof *operations; at++) {
        uint32_t told = SELLUMAQ_NO_MEMORY;
        for (long calls = refuse ? 0 : -1; told != SELLUMAQ_ADDED; calls++) {
            sellumaq_judysl made = { 0 };
            uint64_t value = 0;
            sellumaq_judysl_put(&made, (const uint8_t *)"was", 3, 7);
            answered = calls;
            told = operations[at].call(&made, one, other);
            answered = -1;
            if (told == SELLUMAQ_ADDED) compare_made(operations[at].keeps, one, other, &made);
            else CHECK(told == SELLUMAQ_NO_MEMORY && calls >= 0 && sellumaq_judysl_len(&made) == 1);
            CHECK(told == SELLUMAQ_ADDED || (sellumaq_judysl_get(&made, (const uint8_t *)"was", 3, &value) && value == 7));
            sellumaq_judysl_free(&made);
        }
    }
}

/* The order of strings: by their bytes, one before those that go on behind it. */
static int order(const uint8_t *one, size_t length, const uint8_t *other, size_t other_length) {
    int told = memcmp(one, other, length < other_length ? length : other_length);
    return told ? told : (length > other_length) - (length < other_length);
}

/* What goes of a map: the keys from one string to another, or those that begin with the first. */
typedef struct {
    const uint8_t *from, *to;
    size_t from_length, to_length;
    bool by_prefix;
} gone;

static bool goes(const gone *gone, const way *way) {
    if (gone->by_prefix) return way->length >= gone->from_length && memcmp(way->bytes, gone->from, gone->from_length) == 0;
    return order(gone->from, gone->from_length, way->bytes, way->length) <= 0 && order(way->bytes, way->length, gone->to, gone->to_length) <= 0;
}

/* Takes keys out of a copy, without memory if so wanted. */
static void take_out(const sellumaq_judysl *old, const gone *gone, long calls) {
    sellumaq_judysl map = { 0 };
    CHECK(sellumaq_judysl_copy(&map, old) == SELLUMAQ_ADDED && is_same(&map, old));
    answered = calls;
    uint64_t count = gone->by_prefix ? sellumaq_judysl_remove_prefix(&map, gone->from, gone->from_length)
                                     : sellumaq_judysl_remove_range(&map, gone->from, gone->from_length, gone->to, gone->to_length);
    answered = -1;
    uint64_t wanted = 0, value;
    way way = { .map = old };
    while (next(&way)) {
        CHECK(has(&map, &way, &value) == !goes(gone, &way) && (goes(gone, &way) || value == way.value));
        wanted += goes(gone, &way);
    }
    CHECK(count == wanted && sellumaq_judysl_len(&map) == sellumaq_judysl_len(old) - wanted);
    sellumaq_judysl_free(&map);
}

static void try_ranges(const sellumaq_judysl *map) {
    static uint8_t ends[4][LONGEST];
    size_t lengths[4] = { 0, write_key(any() >> 50, ends[1]), 0, LONGEST };
    uint64_t value;
    memset(ends[3], 255, sizeof ends[3]);
    sellumaq_judysl_by_count(map, sellumaq_judysl_len(map) / 2 + 1, ends[2], sizeof ends[2], &lengths[2], &value);
    for (size_t from = 0; from < 4; from++) {
        gone gone = { ends[from], ends[from], lengths[from], lengths[from], true };
        take_out(map, &gone, -1);
        gone.from_length = lengths[from] / 2;
        take_out(map, &gone, 0);
        for (size_t to = 0; to < 4; to++) {
            gone.from_length = lengths[from];
            gone.to = ends[to];
            gone.to_length = lengths[to];
            gone.by_prefix = false;
            take_out(map, &gone, -1);
            take_out(map, &gone, 0);
        }
    }
    /* What a map can't hold is no end, and begins no key. */
    sellumaq_judysl same = { 0 };
    const uint8_t *none = (const uint8_t *)"a\0b";
    CHECK(sellumaq_judysl_copy(&same, map) == SELLUMAQ_ADDED);
    CHECK(sellumaq_judysl_remove_range(&same, none, 3, ends[3], lengths[3]) == 0 && sellumaq_judysl_remove_range(&same, ends[0], 0, none, 3) == 0);
    CHECK(sellumaq_judysl_remove_prefix(&same, none, 3) == 0 && is_same(&same, map));
    sellumaq_judysl_free(&same);
}

int main(void) {
    for (unsigned turn = 0; turn < 60; turn++) {
        sellumaq_judysl maps[2] = { { 0 }, { 0 } };
        bool refuse = turn % 4 == 0;
        size_t most = refuse ? 60 : MOST_KEYS;
        for (unsigned place = 0; place < 2; place++) fill(&maps[place], turn % 9 == place ? place : any() % most, 7 + turn % 20);
        way way = { .map = &maps[0] };
        while (turn % 3 && next(&way))
            if (turn % 3 == 1 || any() % 2) sellumaq_judysl_put(&maps[1], way.bytes, way.length, any());
        for (unsigned place = 0; place < 2; place++) {
            compare(&maps[place], &maps[!place]);
            make(&maps[place], &maps[!place], refuse);
            try_ranges(&maps[place]);
        }
        for (unsigned place = 0; place < 2; place++) sellumaq_judysl_free(&maps[place]);
    }
    CHECK(held == 0);
    return 0;
}
