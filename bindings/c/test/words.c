/* The arrays of words by Sellumaq's own names, beside a table of 256 places: keys are drawn from few words, so that
 * each call meets keys and gaps. */
#include <string.h>

#include "../sellumaq.h"
#include "check.h"

enum { WORDS = 256 };

/* The table's place for a word: the words go up in steps, and the last is the greatest word. */
static uint64_t word_at(unsigned place) { return place == WORDS - 1 ? UINT64_MAX : (uint64_t)place * 3 + ((uint64_t)(place / 64) << 40); }

static bool held[WORDS];
static uint64_t values[WORDS];

static int next_held(int place) { for (; place < WORDS; place++) if (held[place]) return place; return -1; }
static int prev_held(int place) { for (; place >= 0; place--) if (held[place]) return place; return -1; }

static uint64_t held_in(int from, int to) {
    uint64_t count = 0;
    for (int place = from; place <= to; place++) count += held[place];
    return count;
}

/* Whether a search answered the table's place, or that there is none. */
static bool told(bool answer, const uint64_t *found, int place) { return answer == (place >= 0) && (!answer || *found == word_at((unsigned)place)); }

/* Whether it told that key's value too. */
static bool told_both(bool answer, const uint64_t *found, const uint64_t *value, int place) {
    return told(answer, found, place) && (!answer || *value == values[place]);
}

/* Whether it handed out that key's slot. */
static bool lent(bool answer, const uint64_t *found, uint64_t *const *slot, int place) {
    return told(answer, found, place) && (!answer || **slot == values[place]);
}

/* Whether the walks from a place on, or down from it, write the table's keys, as many as fit and no word behind
 * them. */
static void walks(sellumaq_judy1 *set, sellumaq_judyl *map, int from, size_t capacity, bool down) {
    uint64_t keys[WORDS + 1], word = word_at((unsigned)from);
    sellumaq_pair pairs[WORDS + 1];
    memset(keys, 0x5a, sizeof keys);
    memset(pairs, 0x5a, sizeof pairs);
    uint64_t beyond = keys[0], left = down ? held_in(0, from) : held_in(from, WORDS - 1);
    size_t count = left < capacity ? left : capacity;
    CHECK((down ? sellumaq_judy1_walk_down : sellumaq_judy1_walk)(set, word, keys, capacity) == count);
    CHECK((down ? sellumaq_judyl_walk_down : sellumaq_judyl_walk)(map, word, pairs, capacity) == count);
    int place = down ? prev_held(from) : next_held(from);
    for (size_t n = 0; n < count; n++, place = down ? prev_held(place - 1) : next_held(place + 1))
        CHECK(keys[n] == word_at((unsigned)place) && pairs[n].key == keys[n] && pairs[n].value == values[place]);
    for (size_t n = count; n <= WORDS; n++) CHECK(keys[n] == beyond && pairs[n].key == beyond && pairs[n].value == beyond);
}

/* Whether many keys from a place on, an odd number of them, are looked up as each by itself, and nothing is written
 * behind them. */
static void looks(sellumaq_judy1 *set, sellumaq_judyl *map, int from, size_t count, size_t capacity) {
    uint64_t keys[WORDS] = {0};
    sellumaq_found found[WORDS + 1];
    union { bool told[WORDS + 1]; unsigned char bytes[WORDS + 1]; } there;
    memset(found, 0x5a, sizeof found);
    memset(there.bytes, 0x5a, sizeof there);
    uint64_t beyond = found[0].value;
    size_t told = count < capacity ? count : capacity;
    for (size_t n = 0; n < count; n++) keys[n] = word_at((unsigned)(from + 7 * (int)n) % WORDS);
    CHECK(sellumaq_judyl_get_many(map, keys, count, found, capacity) == told);
    CHECK(sellumaq_judy1_test_many(set, keys, count, there.told, capacity) == told);
    for (size_t n = 0; n < told; n++) {
        int place = (from + 7 * (int)n) % WORDS;
        CHECK(found[n].there == held[place] && found[n].value == (held[place] ? values[place] : 0));
        CHECK(there.bytes[n] == held[place]);
    }
    for (size_t n = told; n <= WORDS; n++) CHECK(found[n].value == beyond && found[n].there == beyond && there.bytes[n] == 0x5a);
}

static void compare(sellumaq_judy1 *set, sellumaq_judyl *map, int place) {
    uint64_t from = word_at((unsigned)place), found = 0, value = 0, *slot = NULL;
    CHECK(sellumaq_judy1_test(set, from) == held[place]);
    CHECK(sellumaq_judyl_get(map, from, &value) == held[place] && (!held[place] || value == values[place]));
    CHECK(sellumaq_judyl_slot(map, from, &slot) == held[place] && (!held[place] || *slot == values[place]));
    CHECK(told(sellumaq_judy1_first(set, from, &found), &found, next_held(place)));
    CHECK(told(sellumaq_judyl_first(map, from, &found), &found, next_held(place)));
    CHECK(told_both(sellumaq_judyl_first_entry(map, from, &found, &value), &found, &value, next_held(place)));
    CHECK(lent(sellumaq_judyl_first_slot(map, from, &found, &slot), &found, &slot, next_held(place)));
    CHECK(told(sellumaq_judy1_next(set, from, &found), &found, next_held(place + 1)));
    CHECK(told(sellumaq_judyl_next(map, from, &found), &found, next_held(place + 1)));
    CHECK(told_both(sellumaq_judyl_next_entry(map, from, &found, &value), &found, &value, next_held(place + 1)));
    CHECK(lent(sellumaq_judyl_next_slot(map, from, &found, &slot), &found, &slot, next_held(place + 1)));
    CHECK(told(sellumaq_judy1_last(set, from, &found), &found, prev_held(place)));
    CHECK(told(sellumaq_judyl_last(map, from, &found), &found, prev_held(place)));
    CHECK(told_both(sellumaq_judyl_last_entry(map, from, &found, &value), &found, &value, prev_held(place)));
    CHECK(lent(sellumaq_judyl_last_slot(map, from, &found, &slot), &found, &slot, prev_held(place)));
    CHECK(told(sellumaq_judy1_prev(set, from, &found), &found, prev_held(place - 1)));
    CHECK(told(sellumaq_judyl_prev(map, from, &found), &found, prev_held(place - 1)));
    CHECK(told_both(sellumaq_judyl_prev_entry(map, from, &found, &value), &found, &value, prev_held(place - 1)));
    CHECK(lent(sellumaq_judyl_prev_slot(map, from, &found, &slot), &found, &slot, prev_held(place - 1)));
    CHECK(sellumaq_judy1_count(set, 0, from) == held_in(0, place) && sellumaq_judyl_count(map, from, UINT64_MAX) == held_in(place, WORDS - 1));
    uint64_t n = held_in(0, place);
    CHECK(told(sellumaq_judy1_by_count(set, n, &found), &found, n ? prev_held(place) : -1));
    CHECK(told(sellumaq_judyl_by_count(map, n, &found), &found, n ? prev_held(place) : -1));
    CHECK(told_both(sellumaq_judyl_by_count_entry(map, n, &found, &value), &found, &value, n ? prev_held(place) : -1));
    CHECK(lent(sellumaq_judyl_by_count_slot(map, n, &found, &slot), &found, &slot, n ? prev_held(place) : -1));
    CHECK(sellumaq_judy1_len(set) == held_in(0, WORDS - 1) && sellumaq_judyl_len(map) == held_in(0, WORDS - 1));
    if (sellumaq_judyl_first_slot(map, from, &found, &slot)) values[next_held(place)] = *slot = 3 * *slot + 1;
    for (int down = 0; down < 2; down++) walks(set, map, place, place % 3 ? (size_t)place % 16 : WORDS, down);
    looks(set, map, place, (size_t)place % 70, place % 2 ? WORDS : (size_t)place % 40);
}

static void empties(sellumaq_judy1 *set, sellumaq_judyl *map) {
    uint64_t found = 7;
    for (uint64_t key = 0; key < 3; key++) {
        uint64_t *slot;
        CHECK(sellumaq_judy1_set(set, key) == SELLUMAQ_ADDED && sellumaq_judyl_ins(map, key, &slot));
        CHECK(sellumaq_judy1_set(set, UINT64_MAX - key) == SELLUMAQ_ADDED && sellumaq_judyl_ins(map, UINT64_MAX - key, &slot));
    }
    CHECK(sellumaq_judy1_first_empty(set, 0, &found) && found == 3);
    CHECK(sellumaq_judyl_first_empty(map, 0, &found) && found == 3);
    CHECK(sellumaq_judy1_next_empty(set, 3, &found) && found == 4);
    CHECK(sellumaq_judyl_next_empty(map, 3, &found) && found == 4);
    CHECK(sellumaq_judy1_last_empty(set, UINT64_MAX, &found) && found == UINT64_MAX - 3);
    CHECK(sellumaq_judyl_last_empty(map, UINT64_MAX, &found) && found == UINT64_MAX - 3);
    CHECK(sellumaq_judy1_prev_empty(set, UINT64_MAX - 3, &found) && found == UINT64_MAX - 4);
    CHECK(sellumaq_judyl_prev_empty(map, UINT64_MAX - 3, &found) && found == UINT64_MAX - 4);
    CHECK(!sellumaq_judy1_last_empty(set, 2, &found) && !sellumaq_judyl_prev_empty(map, 2, &found));
    CHECK(!sellumaq_judyl_first_empty(map, UINT64_MAX - 2, &found) && !sellumaq_judy1_next_empty(set, UINT64_MAX - 2, &found));
    CHECK(found == UINT64_MAX - 4);
    CHECK(sellumaq_judy1_free(set) == 6 && sellumaq_judyl_free(map) == 6);
}

/* A walk down of no keys writes nothing. */
static void none_down(const sellumaq_judy1 *set, const sellumaq_judyl *map) {
    uint64_t key = 7;
    sellumaq_pair pair = {7, 8};
    CHECK(sellumaq_judy1_walk_down(set, 0, &key, 1) == 0 && sellumaq_judy1_walk_down(set, UINT64_MAX, &key, 1) == 0 && key == 7);
    CHECK(sellumaq_judyl_walk_down(map, 0, &pair, 1) == 0 && sellumaq_judyl_walk_down(map, UINT64_MAX, &pair, 1) == 0);
    CHECK(pair.key == 7 && pair.value == 8);
}

/* Walks down of null handles, of the least word from both ends, and of arrays that were emptied. */
static void ends_down(sellumaq_judy1 *set, sellumaq_judyl *map) {
    uint64_t key = 7;
    sellumaq_pair pair = {7, 8};
    none_down(set, map);
    CHECK(set->array == NULL && map->array == NULL);
    CHECK(sellumaq_judy1_set(set, 0) == SELLUMAQ_ADDED && sellumaq_judyl_put(map, 0, 9) == SELLUMAQ_ADDED);
    CHECK(sellumaq_judy1_walk_down(set, 0, &key, 0) == 0 && sellumaq_judyl_walk_down(map, 0, &pair, 0) == 0 && key == 7 && pair.value == 8);
    CHECK(sellumaq_judy1_walk_down(set, 0, &key, 1) == 1 && key == 0);
    CHECK(sellumaq_judyl_walk_down(map, UINT64_MAX, &pair, 1) == 1 && pair.key == 0 && pair.value == 9);
    CHECK(sellumaq_judy1_unset(set, 0) && sellumaq_judyl_del(map, 0));
    none_down(set, map);
    CHECK(sellumaq_judy1_free(set) == 0 && sellumaq_judyl_free(map) == 0);
}

int main(void) {
    sellumaq_judy1 set = {0};
    sellumaq_judyl map = {0};
    empties(&set, &map);
    ends_down(&set, &map);
    compare(&set, &map, 5);
    CHECK(set.array == NULL && map.array == NULL);
    for (int turn = 0; turn < 20000; turn++) {
        unsigned place = any() % WORDS;
        uint64_t key = word_at(place), *slot = NULL;
        if (any() % 8 < (turn % 4000 < 2000 ? 5 : 3)) {
            CHECK(sellumaq_judy1_set(&set, key) == (held[place] ? SELLUMAQ_PRESENT : SELLUMAQ_ADDED));
            CHECK(sellumaq_judyl_ins(&map, key, &slot) && *slot == (held[place] ? values[place] : 0));
            held[place] = true;
            values[place] = *slot = any();
        } else if (any() % 4 == 0) {
            CHECK(sellumaq_judy1_set(&set, key) == (held[place] ? SELLUMAQ_PRESENT : SELLUMAQ_ADDED));
            CHECK(sellumaq_judyl_put(&map, key, (uint64_t)turn) == (held[place] ? SELLUMAQ_PRESENT : SELLUMAQ_ADDED));
            held[place] = true;
            values[place] = (uint64_t)turn;
        } else if (any() % 3 == 0) {
            uint64_t was = 977;
            CHECK(sellumaq_judy1_set(&set, key) == (held[place] ? SELLUMAQ_PRESENT : SELLUMAQ_ADDED));
            CHECK(sellumaq_judyl_insert(&map, key, (uint64_t)turn, &was) == (held[place] ? SELLUMAQ_PRESENT : SELLUMAQ_ADDED));
            CHECK(was == (held[place] ? values[place] : 977));
            held[place] = true;
            values[place] = (uint64_t)turn;
        } else if (any() % 2 == 0) {
            uint64_t was = 977;
            CHECK(sellumaq_judy1_unset(&set, key) == held[place] && sellumaq_judyl_remove(&map, key, &was) == held[place]);
            CHECK(was == (held[place] ? values[place] : 977));
            held[place] = false;
        } else {
            CHECK(sellumaq_judy1_unset(&set, key) == held[place] && sellumaq_judyl_del(&map, key) == held[place]);
            held[place] = false;
        }
        compare(&set, &map, (int)(any() % WORDS));
    }
    uint64_t left = held_in(0, WORDS - 1);
    CHECK(sellumaq_judy1_free(&set) == left && sellumaq_judyl_free(&map) == left);
    CHECK(sellumaq_judy1_free(&set) == 0 && sellumaq_judyl_free(&map) == 0);
    puts("words: ok");
    return 0;
}
