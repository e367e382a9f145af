/* What is told of two sets, and of two maps: beside what a look-up of each key tells. */
#include "../sellumaq.h"
#include "check.h"

enum { MOST_KEYS = 3000 };

/* Whether a set is part of another, apart from it or the same, by look-ups, with the number of the keys that both
 * have. */
typedef struct {
    uint64_t common;
    bool subset, disjoint, same;
} told;

static told by_look_ups(const sellumaq_judy1 *one, const sellumaq_judy1 *other) {
    told found = { 0 };
    uint64_t key = 0;
    for (bool left = sellumaq_judy1_first(one, 0, &key); left; left = sellumaq_judy1_next(one, key, &key))
        found.common += sellumaq_judy1_test(other, key);
    found.subset = found.common == sellumaq_judy1_len(one);
    found.disjoint = found.common == 0;
    found.same = found.subset && found.common == sellumaq_judy1_len(other);
    return found;
}

/* Compares what the calls tell of two sets, and of the maps with their keys, with that. */
static void compare(const sellumaq_judy1 *one, const sellumaq_judy1 *other, const sellumaq_judyl *map, const sellumaq_judyl *second) {
    uint64_t ours = sellumaq_judy1_len(one), theirs = sellumaq_judy1_len(other);
    told found = by_look_ups(one, other);
    CHECK(sellumaq_judy1_intersection_count(one, other) == found.common && sellumaq_judyl_intersection_count(map, second) == found.common);
    CHECK(sellumaq_judy1_union_count(one, other) == ours + theirs - found.common);
    CHECK(sellumaq_judyl_union_count(map, second) == ours + theirs - found.common);
    CHECK(sellumaq_judy1_difference_count(one, other) == ours - found.common);
    CHECK(sellumaq_judyl_difference_count(map, second) == ours - found.common);
    CHECK(sellumaq_judy1_symmetric_difference_count(one, other) == ours + theirs - 2 * found.common);
    CHECK(sellumaq_judyl_symmetric_difference_count(map, second) == ours + theirs - 2 * found.common);
    CHECK(sellumaq_judy1_is_subset(one, other) == found.subset && sellumaq_judyl_is_subset(map, second) == found.subset);
    CHECK(sellumaq_judy1_is_disjoint(one, other) == found.disjoint && sellumaq_judyl_is_disjoint(map, second) == found.disjoint);
    CHECK(sellumaq_judy1_has_same_keys(one, other) == found.same && sellumaq_judyl_has_same_keys(map, second) == found.same);
}

typedef uint32_t of_sets(sellumaq_judy1 *, const sellumaq_judy1 *, const sellumaq_judy1 *);
typedef uint32_t of_maps(sellumaq_judyl *, const sellumaq_judyl *, const sellumaq_judyl *);

/* Whether a result has a key, by whether the one and the other have it. */
typedef bool keeps(bool one, bool other);
static bool in_union(bool one, bool other) { return one || other; }
static bool in_intersection(bool one, bool other) { return one && other; }
static bool in_difference(bool one, bool other) { return one && !other; }
static bool in_symmetric_difference(bool one, bool other) { return one != other; }

static const struct {
    of_sets *set;
    of_maps *map;
    keeps *keeps;
} operations[] = {
    { sellumaq_judy1_union, sellumaq_judyl_union, in_union },
    { sellumaq_judy1_intersection, sellumaq_judyl_intersection, in_intersection },
    { sellumaq_judy1_difference, sellumaq_judyl_difference, in_difference },
    { sellumaq_judy1_symmetric_difference, sellumaq_judyl_symmetric_difference, in_symmetric_difference },
};

/* Compares the keys of one of two arrays with a result, and in a map their values: the one's, where it has the key. How
 * many of them are kept. */
static uint64_t compare_kept(keeps *kept, bool first, const sellumaq_judy1 sets[2], const sellumaq_judyl maps[2], const sellumaq_judy1 *set, const sellumaq_judyl *map) {
    uint64_t key = 0, count = 0, value = 0, wanted = 0;
    const sellumaq_judy1 *walked = &sets[!first];
    for (bool left = sellumaq_judy1_first(walked, 0, &key); left; left = sellumaq_judy1_next(walked, key, &key)) {
        bool one = sellumaq_judy1_test(&sets[0], key), other = sellumaq_judy1_test(&sets[1], key), is_kept = kept(one, other);
        CHECK(sellumaq_judy1_test(set, key) == is_kept && sellumaq_judyl_get(map, key, &value) == is_kept);
        CHECK(sellumaq_judyl_get(&maps[!one], key, &wanted) && (!is_kept || value == wanted));
        count += is_kept && (first || !one);
    }
    return count;
}

/* Makes each result in place of what a set and a map hold, and compares it with look-ups. */
static void make(const sellumaq_judy1 sets[2], const sellumaq_judyl maps[2]) {
    sellumaq_judy1 set = { 0 };
    sellumaq_judyl map = { 0 };
    for (size_t at = 0; at < sizeof operations / sizeof *operations; at++) {
        CHECK(operations[at].set(&set, &sets[0], &sets[1]) == SELLUMAQ_ADDED);
        CHECK(operations[at].map(&map, &maps[0], &maps[1]) == SELLUMAQ_ADDED);
        uint64_t count = compare_kept(operations[at].keeps, true, sets, maps, &set, &map);
        count += compare_kept(operations[at].keeps, false, sets, maps, &set, &map);
        CHECK(sellumaq_judy1_len(&set) == count && sellumaq_judyl_len(&map) == count);
    }
    sellumaq_judy1_free(&set);
    sellumaq_judyl_free(&map);
}

/* A word of a pattern: a dense one, one of a run, one of so many bits, one beside a few that are far from all others,
 * or any of these. */
static uint64_t word_of(unsigned pattern, unsigned bits) {
    uint64_t at = any() % (2 * MOST_KEYS), far = any() >> (64 - bits);
    switch (pattern) {
    case 0: return at;
    case 1: return at / 500 * 100003 + at % 500;
    case 2: return far;
    case 3: return (at / 30 * 0x9e3779b97f4a7c15 & ~(UINT64_MAX >> (64 - bits))) | far;
    default: return word_of((unsigned)(any() % 4), bits);
    }
}

/* Puts a key into a set and a map. */
static void put(sellumaq_judy1 *set, sellumaq_judyl *map, uint64_t key) {
    sellumaq_judy1_set(set, key);
    sellumaq_judyl_put(map, key, any());
}

/* Two sets of so many keys each of a pattern, which share about every second one, or all. */
static void fill(sellumaq_judy1 sets[2], sellumaq_judyl maps[2], size_t counts[2], unsigned pattern, unsigned bits, bool all) {
    for (size_t place = 0; place < 2; place++)
        for (size_t at = 0; at < counts[place]; at++)
            put(&sets[place], &maps[place], word_of(pattern, bits));
    uint64_t key = 0;
    for (bool left = sellumaq_judy1_first(&sets[0], 0, &key); left; left = sellumaq_judy1_next(&sets[0], key, &key))
        if (all || any() % 2) put(&sets[1], &maps[1], key);
}

int main(void) {
    for (unsigned turn = 0; turn < 120; turn++) {
        sellumaq_judy1 sets[2] = { { 0 }, { 0 } };
        sellumaq_judyl maps[2] = { { 0 }, { 0 } };
        size_t counts[2] = { turn % 4 ? any() % MOST_KEYS : turn % 3, turn % 5 ? any() % (MOST_KEYS >> turn % 7) : 0 };
        fill(sets, maps, counts, turn < 80 ? 2 : turn % 5, 9 + turn % 55, turn % 3 == 0);
        compare(&sets[0], &sets[1], &maps[0], &maps[1]);
        compare(&sets[1], &sets[0], &maps[1], &maps[0]);
        make(sets, maps);
        uint64_t last = UINT64_MAX;
        put(&sets[0], &maps[0], last);
        compare(&sets[0], &sets[1], &maps[0], &maps[1]);
        compare(&sets[1], &sets[0], &maps[1], &maps[0]);
        for (size_t place = 0; place < 2; place++) {
            sellumaq_judy1_free(&sets[place]);
            sellumaq_judyl_free(&maps[place]);
        }
    }
    return 0;
}
