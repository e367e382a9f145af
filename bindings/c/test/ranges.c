/* Ranges of sets and maps: how many of their words are no keys, and keys taken out of copies, beside what a look-up of
 * each key tells. Memory is refused to some of the calls, and so to copies and to what is made of two, which then leave
 * what they are made in place of. */
#include "../sellumaq.h"
#include "check.h"
#include "refusing.h"

enum { MOST_KEYS = 3000 };

static bool is_in(uint64_t key, uint64_t from, uint64_t to) { return from <= key && key <= to; }

/* Checks that a set and a map have of two others the keys outside of a range, and these alone. How many lie in it. */
static uint64_t compare(const sellumaq_judy1 *set, const sellumaq_judyl *map, const sellumaq_judy1 *old, const sellumaq_judyl *old_map, uint64_t from, uint64_t to) {
    uint64_t key = 0, value = 0, wanted = 0, inside = 0;
    for (bool left = sellumaq_judy1_first(old, 0, &key); left; left = sellumaq_judy1_next(old, key, &key)) {
        bool gone = is_in(key, from, to);
        CHECK(sellumaq_judy1_test(set, key) == !gone && sellumaq_judyl_get(map, key, &value) == !gone);
        CHECK(sellumaq_judyl_get(old_map, key, &wanted) && (gone || value == wanted));
        inside += gone;
    }
    CHECK(sellumaq_judy1_len(set) == sellumaq_judy1_len(old) - inside && sellumaq_judyl_len(map) == sellumaq_judyl_len(old_map) - inside);
    return inside;
}

/* Takes a range out of a copy of each, with so many calls for memory answered, and copies what is left: it may be
 * loose. */
static void take_out(const sellumaq_judy1 *old, const sellumaq_judyl *old_map, uint64_t from, uint64_t to, long calls) {
    sellumaq_judy1 set = { 0 }, left = { 0 };
    sellumaq_judyl map = { 0 }, left_map = { 0 };
    CHECK(sellumaq_judy1_copy(&set, old) == SELLUMAQ_ADDED && sellumaq_judyl_copy(&map, old_map) == SELLUMAQ_ADDED);
    answered = calls;
    uint64_t count = sellumaq_judy1_remove_range(&set, from, to), of_map = sellumaq_judyl_remove_range(&map, from, to);
    answered = -1;
    CHECK(compare(&set, &map, old, old_map, from, to) == count && of_map == count);
    CHECK(sellumaq_judy1_copy(&left, &set) == SELLUMAQ_ADDED && sellumaq_judyl_copy(&left_map, &map) == SELLUMAQ_ADDED);
    CHECK(compare(&left, &left_map, old, old_map, from, to) == count);
    sellumaq_judy1_free(&set), sellumaq_judy1_free(&left);
    sellumaq_judyl_free(&map), sellumaq_judyl_free(&left_map);
}

/* Compares how many words of a range are no keys with a count of the keys. */
static void count_words(const sellumaq_judy1 *set, const sellumaq_judyl *map, uint64_t from, uint64_t to) {
    uint64_t keys = sellumaq_judy1_count(set, from, to), wanted = from > to ? 0 : to - from - keys + 1;
    CHECK(sellumaq_judy1_count_empty(set, from, to) == wanted && sellumaq_judyl_count_empty(map, from, to) == wanted);
}

typedef uint32_t of_sets(sellumaq_judy1 *, const sellumaq_judy1 *, const sellumaq_judy1 *);
typedef uint32_t of_maps(sellumaq_judyl *, const sellumaq_judyl *, const sellumaq_judyl *);

static uint32_t copy_set(sellumaq_judy1 *made, const sellumaq_judy1 *one, const sellumaq_judy1 *other) {
    (void)other;
    return sellumaq_judy1_copy(made, one);
}

static uint32_t copy_map(sellumaq_judyl *made, const sellumaq_judyl *one, const sellumaq_judyl *other) {
    (void)other;
    return sellumaq_judyl_copy(made, one);
}

static const struct {
    of_sets *set;
    of_maps *map;
} makers[] = {
    { copy_set, copy_map },
    { sellumaq_judy1_union, sellumaq_judyl_union },
    { sellumaq_judy1_intersection, sellumaq_judyl_intersection },
    { sellumaq_judy1_difference, sellumaq_judyl_difference },
    { sellumaq_judy1_symmetric_difference, sellumaq_judyl_symmetric_difference },
};

/* What is refused memory leaves what it is made in place of; else it is what is made where memory is there. */
static void refuse(const sellumaq_judy1 sets[2], const sellumaq_judyl maps[2], size_t at, long calls) {
    sellumaq_judy1 set = { 0 }, whole = { 0 };
    sellumaq_judyl map = { 0 }, whole_map = { 0 };
    sellumaq_judy1_set(&set, 7);
    sellumaq_judyl_put(&map, 7, 70);
    CHECK(makers[at].set(&whole, &sets[0], &sets[1]) == SELLUMAQ_ADDED && makers[at].map(&whole_map, &maps[0], &maps[1]) == SELLUMAQ_ADDED);
    answered = calls;
    uint32_t told = makers[at].set(&set, &sets[0], &sets[1]), of_map = makers[at].map(&map, &maps[0], &maps[1]);
    answered = -1;
    CHECK(told == SELLUMAQ_ADDED ? sellumaq_judy1_has_same_keys(&set, &whole)
                                 : told == SELLUMAQ_NO_MEMORY && sellumaq_judy1_len(&set) == 1 && sellumaq_judy1_test(&set, 7));
    CHECK(of_map == SELLUMAQ_ADDED ? sellumaq_judyl_has_same_keys(&map, &whole_map) : of_map == SELLUMAQ_NO_MEMORY && sellumaq_judyl_len(&map) == 1);
    sellumaq_judy1_free(&set), sellumaq_judy1_free(&whole);
    sellumaq_judyl_free(&map), sellumaq_judyl_free(&whole_map);
}

static void refuse_results(const sellumaq_judy1 sets[2], const sellumaq_judyl maps[2]) {
    for (size_t at = 0; at < sizeof makers / sizeof *makers; at++)
        for (long calls = 0; calls < 4; calls++) refuse(sets, maps, at, calls < 3 ? calls : (long)(any() % 200));
}

static void try_ranges(const sellumaq_judy1 *set, const sellumaq_judyl *map, unsigned bits) {
    uint64_t ends[] = { 0, any() >> (64 - bits), any() >> (64 - bits), UINT64_MAX };
    for (size_t from = 0; from < 4; from++)
        for (size_t to = 0; to < 4; to++) {
            take_out(set, map, ends[from], ends[to], -1);
            take_out(set, map, ends[from], ends[to], (long)(any() % 8));
            if (from || to < 3 || sellumaq_judy1_len(set)) count_words(set, map, ends[from], ends[to]);
        }
}

/* Keys of so many bits; in every third turn three runs of words, far apart, whose bitmap leaves skip bytes. */
static uint64_t any_key(unsigned turn, unsigned bits) {
    uint64_t key = any() >> (64 - bits);
    return turn % 3 ? key : key % 3 << 40 | any() % 300;
}

int main(void) {
    const sellumaq_judy1 none = { 0 };
    const sellumaq_judyl no_map = { 0 };
    CHECK(sellumaq_judy1_count_empty(&none, 0, UINT64_MAX) == UINT64_MAX && sellumaq_judyl_count_empty(&no_map, 0, UINT64_MAX) == UINT64_MAX);
    try_ranges(&none, &no_map, 60);
    for (unsigned turn = 0; turn < 30; turn++) {
        sellumaq_judy1 sets[2] = { { 0 }, { 0 } };
        sellumaq_judyl maps[2] = { { 0 }, { 0 } };
        unsigned bits = 9 + turn % 55;
        for (size_t at = any() % MOST_KEYS; at > 0; at--) {
            uint64_t key = any_key(turn, bits);
            /* Of four keys the first set has two alone, both have one, and the second has one alone. */
            for (size_t place = at % 4 == 0; place < (at % 2 ? 1 : 2); place++) {
                sellumaq_judy1_set(&sets[place], key);
                sellumaq_judyl_put(&maps[place], key, any());
            }
        }
        try_ranges(&sets[0], &maps[0], bits);
        refuse_results(sets, maps);
        for (size_t place = 0; place < 2; place++) {
            sellumaq_judy1_free(&sets[place]);
            sellumaq_judyl_free(&maps[place]);
        }
    }
    CHECK(held == 0);
    return 0;
}
