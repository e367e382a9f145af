/* Parts of sets and maps that are copied, moved, put in and turned, and lists in any order, beside lists that are
 * sorted here: none, dense ones, runs, and words far apart. Memory is refused at each call for it. */
#include "../sellumaq.h"
#include "check.h"
#include "refusing.h"

enum { MOST = 900, RANGE = 700 };

/* Keys that ascend, each with its value. */
typedef struct {
    size_t count;
    sellumaq_pair pairs[2 * MOST + RANGE + 8];
} list;

static void put(list *list, uint64_t key, uint64_t value) { list->pairs[list->count++] = (sellumaq_pair){ key, value }; }

/* Sorts a list, by insertion, since it is a test's; of pairs with one key the last one stays. */
static void sort(list *list) {
    size_t kept = 0;
    for (size_t at = 0; at < list->count; at++) {
        sellumaq_pair pair = list->pairs[at];
        size_t place = kept;
        while (place > 0 && list->pairs[place - 1].key > pair.key) place--;
        if (place > 0 && list->pairs[place - 1].key == pair.key) {
            list->pairs[place - 1] = pair;
            continue;
        }
        for (size_t moved = kept++; moved > place; moved--) list->pairs[moved] = list->pairs[moved - 1];
        list->pairs[place] = pair;
    }
    list->count = kept;
}

static bool has(const list *list, uint64_t key) {
    for (size_t at = 0; at < list->count; at++)
        if (list->pairs[at].key == key) return true;
    return false;
}

/* So many keys of a pattern: dense, runs, and random ones of 26, 32 and 64 bits, with the last word beside them. */
static void fill(list *list, size_t count, unsigned pattern) {
    static const unsigned bits[] = { 26, 32, 64 };
    list->count = 0;
    for (size_t at = 0; at < count; at++) {
        uint64_t word = any(), near = word % (2 * count);
        uint64_t key = pattern == 0 ? near : pattern == 1 ? near / 40 * 100003 + near % 40 : pattern < 5 ? word >> (64 - bits[pattern - 2]) : UINT64_MAX - near;
        put(list, key, any());
    }
    if (count > 5) put(list, count % 2 ? 0 : UINT64_MAX, any());
}

static void make_arrays(const list *list, sellumaq_judy1 *set, sellumaq_judyl *map) {
    *set = (sellumaq_judy1){ 0 };
    *map = (sellumaq_judyl){ 0 };
    for (size_t at = 0; at < list->count; at++) {
        CHECK(sellumaq_judy1_set(set, list->pairs[at].key) == SELLUMAQ_ADDED);
        CHECK(sellumaq_judyl_put(map, list->pairs[at].key, list->pairs[at].value) == SELLUMAQ_ADDED);
    }
}

static void compare_set(const sellumaq_judy1 *set, const list *list) {
    static uint64_t keys[2 * MOST + RANGE + 9];
    CHECK(sellumaq_judy1_len(set) == list->count);
    CHECK(sellumaq_judy1_walk(set, 0, keys, list->count + 1) == list->count);
    for (size_t at = 0; at < list->count; at++) CHECK(keys[at] == list->pairs[at].key);
    CHECK(sellumaq_judy1_walk_down(set, UINT64_MAX, keys, list->count + 1) == list->count);
    for (size_t at = 0; at < list->count; at++) CHECK(keys[at] == list->pairs[list->count - 1 - at].key);
}

static void compare_map(const sellumaq_judyl *map, const list *list) {
    static sellumaq_pair pairs[2 * MOST + RANGE + 9];
    CHECK(sellumaq_judyl_len(map) == list->count);
    CHECK(sellumaq_judyl_walk(map, 0, pairs, list->count + 1) == list->count);
    for (size_t at = 0; at < list->count; at++)
        CHECK(pairs[at].key == list->pairs[at].key && pairs[at].value == list->pairs[at].value);
    CHECK(sellumaq_judyl_walk_down(map, UINT64_MAX, pairs, list->count + 1) == list->count);
    for (size_t at = 0; at < list->count; at++) {
        const sellumaq_pair *last = &list->pairs[list->count - 1 - at];
        CHECK(pairs[at].key == last->key && pairs[at].value == last->value);
    }
}

/* The calls that may want memory. Sets alone have the last two. */
enum call { COPY_RANGE, SPLIT_OFF, APPEND, FROM_UNSORTED, INSERT_RANGE, FLIP, CALLS };

static uint64_t unsorted_keys[2 * MOST];
static sellumaq_pair unsorted_pairs[2 * MOST];

static uint32_t call_set(enum call call, sellumaq_judy1 *one, sellumaq_judy1 *other, uint64_t from, uint64_t to, size_t count) {
    switch (call) {
    case COPY_RANGE: return sellumaq_judy1_copy_range(other, one, from, to);
    case SPLIT_OFF: return sellumaq_judy1_split_off(other, one, from);
    case APPEND: return sellumaq_judy1_append(one, other);
    case FROM_UNSORTED: return sellumaq_judy1_from_unsorted(other, unsorted_keys, count);
    case INSERT_RANGE: return sellumaq_judy1_insert_range(one, from, to);
    default: return sellumaq_judy1_flip(one, from, to);
    }
}

static uint32_t call_map(enum call call, sellumaq_judyl *one, sellumaq_judyl *other, uint64_t from, uint64_t to, size_t count) {
    switch (call) {
    case COPY_RANGE: return sellumaq_judyl_copy_range(other, one, from, to);
    case SPLIT_OFF: return sellumaq_judyl_split_off(other, one, from);
    case APPEND: return sellumaq_judyl_append(one, other);
    default: return sellumaq_judyl_from_unsorted(other, unsorted_pairs, count);
    }
}

static bool is_in(uint64_t key, uint64_t from, uint64_t to) { return from <= key && key <= to; }

/* Those of a list that lie in a range, or those that don't. */
static void part(list *made, const list *from_list, uint64_t from, uint64_t to, bool inside) {
    made->count = 0;
    for (size_t at = 0; at < from_list->count; at++)
        if (is_in(from_list->pairs[at].key, from, to) == inside) put(made, from_list->pairs[at].key, from_list->pairs[at].value);
}

/* What two lists are behind a call. */
static void change(enum call call, list *one, list *other, uint64_t from, uint64_t to, size_t count) {
    static list old;
    old = *one;
    if (call == COPY_RANGE) part(other, &old, from, to, true);
    if (call == SPLIT_OFF) {
        part(other, &old, from, UINT64_MAX, true);
        part(one, &old, from, UINT64_MAX, false);
    }
    if (call == APPEND) {
        for (size_t at = 0; at < other->count; at++)
            if (!has(&old, other->pairs[at].key)) put(one, other->pairs[at].key, other->pairs[at].value);
        other->count = 0;
    }
    if (call == FROM_UNSORTED) {
        other->count = 0;
        for (size_t at = 0; at < count; at++) put(other, unsorted_pairs[at].key, unsorted_pairs[at].value);
    }
    if (call == FLIP) part(one, &old, from, to, false);
    if (call == INSERT_RANGE || call == FLIP)
        for (uint64_t left = from <= to ? to - from + 1 : 0; left > 0; left--)
            if (!has(&old, from + left - 1)) put(one, from + left - 1, 0);
    sort(one);
    sort(other);
}

/* Makes a call over sets and over maps, with so many calls for memory answered; tells how many of the two were
 * refused. */
static int try_once(enum call call, const list old[2], const list made[2], uint64_t from, uint64_t to, size_t count, long calls) {
    sellumaq_judy1 sets[2];
    sellumaq_judyl maps[2];
    for (int at = 0; at < 2; at++) make_arrays(&old[at], &sets[at], &maps[at]);
    answered = calls;
    uint32_t of_set = call_set(call, &sets[0], &sets[1], from, to, count);
    answered = calls;
    uint32_t of_map = call < INSERT_RANGE ? call_map(call, &maps[0], &maps[1], from, to, count) : SELLUMAQ_DONE;
    answered = -1;
    CHECK(of_set == SELLUMAQ_DONE || (of_set == SELLUMAQ_NO_MEMORY && calls >= 0));
    CHECK(of_map == SELLUMAQ_DONE || (of_map == SELLUMAQ_NO_MEMORY && calls >= 0));
    CHECK(call != APPEND || of_set != SELLUMAQ_DONE || !sets[1].array);
    CHECK(call != APPEND || of_map != SELLUMAQ_DONE || !maps[1].array);
    for (int at = 0; at < 2; at++) {
        compare_set(&sets[at], of_set == SELLUMAQ_DONE ? &made[at] : &old[at]);
        compare_map(&maps[at], of_map == SELLUMAQ_DONE && call < INSERT_RANGE ? &made[at] : &old[at]);
        sellumaq_judy1_free(&sets[at]);
        sellumaq_judyl_free(&maps[at]);
    }
    CHECK(held == 0);
    return (of_set != SELLUMAQ_DONE) + (of_map != SELLUMAQ_DONE);
}

/* The same with no call for memory refused, and then with the first one and each later one, the second one, and so
 * on. */
static void try_call(enum call call, const list old[2], uint64_t from, uint64_t to, size_t count, bool refuse) {
    static list made[2];
    for (int at = 0; at < 2; at++) made[at] = old[at];
    change(call, &made[0], &made[1], from, to, count);
    CHECK(try_once(call, old, made, from, to, count, -1) == 0);
    for (long calls = 0; refuse && try_once(call, old, made, from, to, count, calls) > 0; calls++);
}

/* Takes all keys but those of a range out, with and without memory. */
static void keep(const list *old, uint64_t from, uint64_t to) {
    static list kept;
    part(&kept, old, from, to, true);
    for (long calls = -1; calls < 2; calls++) {
        sellumaq_judy1 set;
        sellumaq_judyl map;
        make_arrays(old, &set, &map);
        answered = calls;
        uint64_t of_set = sellumaq_judy1_retain_range(&set, from, to), of_map = sellumaq_judyl_retain_range(&map, from, to);
        answered = -1;
        CHECK(of_set == old->count - kept.count && of_map == of_set);
        compare_set(&set, &kept);
        compare_map(&map, &kept);
        sellumaq_judy1_free(&set);
        sellumaq_judyl_free(&map);
    }
}

static void try_lists(const list old[2], size_t count, bool refuse) {
    size_t keys = old[0].count;
    uint64_t middle = keys ? old[0].pairs[keys / 2].key : 5, third = keys ? old[0].pairs[keys / 3].key : 7;
    uint64_t ends[] = { 0, third, middle, middle + 1, UINT64_MAX };
    try_call(APPEND, old, 0, 0, count, refuse);
    try_call(FROM_UNSORTED, old, 0, 0, count, refuse);
    for (size_t from = 0; from < 5; from++) {
        try_call(SPLIT_OFF, old, ends[from], 0, count, refuse);
        for (size_t to = 0; to < 5; to++) {
            try_call(COPY_RANGE, old, ends[from], ends[to], count, refuse && from == 1);
            keep(&old[0], ends[from], ends[to]);
        }
        uint64_t span = any() % RANGE, to = ends[from] > UINT64_MAX - span ? UINT64_MAX : ends[from] + span;
        for (enum call call = INSERT_RANGE; call < CALLS; call++) {
            try_call(call, old, ends[from], to, count, refuse);
            try_call(call, old, ends[from], ends[from] ? ends[from] - 1 : 0, count, false);
        }
    }
}

/* No memory holds these, and a set is as it was. */
static void too_many(void) {
    sellumaq_judy1 set = { 0 };
    for (int turn = 0; turn < 2; turn++) {
        uint32_t put_in = sellumaq_judy1_insert_range(&set, 0, UINT64_MAX), turned = sellumaq_judy1_flip(&set, 0, UINT64_MAX);
        CHECK((put_in == SELLUMAQ_FULL || put_in == SELLUMAQ_NO_MEMORY) && (turned == SELLUMAQ_FULL || turned == SELLUMAQ_NO_MEMORY));
        CHECK(sellumaq_judy1_insert_range(&set, 5, UINT64_MAX) == SELLUMAQ_NO_MEMORY);
        CHECK(sellumaq_judy1_flip(&set, 1, (uint64_t)1 << 62) == SELLUMAQ_NO_MEMORY);
        CHECK(sellumaq_judy1_len(&set) == (uint64_t)turn && sellumaq_judy1_test(&set, 77) == turn);
        sellumaq_judy1_set(&set, 77);
    }
    sellumaq_judy1_free(&set);
}

/* No word is from one to another below it: a handle of zeros stays one, and no memory is asked for. */
static void no_words(void) {
    for (long calls = -1; calls < 1; calls++) {
        sellumaq_judy1 set = { 0 };
        answered = calls;
        uint32_t put_in = sellumaq_judy1_insert_range(&set, 6, 5), turned = sellumaq_judy1_flip(&set, UINT64_MAX, 0);
        answered = -1;
        CHECK(put_in == SELLUMAQ_DONE && turned == SELLUMAQ_DONE);
        CHECK(!set.array && held == 0);
    }
}

int main(void) {
    static list old[2];
    for (unsigned turn = 0; turn < 60; turn++) {
        bool refuse = turn % 3 == 0;
        size_t most = refuse ? 120 : MOST - 1;
        for (int at = 0; at < 2; at++) {
            fill(&old[at], turn % 7 + (unsigned)at < 2 ? turn % 2 : any() % most, turn % 6);
            sort(&old[at]);
        }
        /* Pairs of both, so that some have one key. */
        size_t count = old[1].count + old[0].count / 2;
        for (size_t at = 0; at < count; at++) {
            unsorted_pairs[at] = at < old[1].count ? old[1].pairs[old[1].count - 1 - at] : old[0].pairs[at - old[1].count];
            unsorted_keys[at] = unsorted_pairs[at].key;
        }
        try_lists(old, count, refuse);
    }
    no_words();
    too_many();
    CHECK(held == 0);
    return 0;
}
