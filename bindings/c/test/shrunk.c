/* What shrink leaves of maps of strings from which most keys went: the same keys, and no pages but full ones and one of
 * each length. Beside these the trees of words by which keys are found keep room, some bytes for each key that there
 * was. No call for memory is answered meanwhile; where it is, a map of byte strings has little more than a new one. And
 * what an insert does itself that is refused memory: it shrinks the map, where enough keys went since that was last
 * done, and is tried once more. */
#include <string.h>
#include <time.h>

#include "../sellumaq.h"
#include "check.h"
#include "refusing.h"

/* ROOM is for how many bytes a key, CAP how many bytes a map may take that is filled. So many inserts are REFUSED, in
 * less time than each key takes to be looked up LOOKS times. */
enum { MOST = 40000, LONGEST = 1200, ROOM = 8, CAP = 4 << 20, REFUSED = 1000, LOOKS = 10 };

typedef struct {
    const char *name;
    uint32_t (*put)(void *map, const uint8_t *key, size_t length, uint64_t value);
    bool (*get)(const void *map, const uint8_t *key, size_t length, uint64_t *value);
    bool (*del)(void *map, const uint8_t *key, size_t length);
    uint64_t (*len)(const void *map);
    void (*shrink)(void *map);
    uint64_t (*free)(void *map);
} Kind;

#define KIND(kind)                                                                                            \
    static uint32_t kind##_put(void *map, const uint8_t *key, size_t length, uint64_t value) {                \
        return sellumaq_##kind##_put(map, key, length, value);                                                \
    }                                                                                                         \
    static bool kind##_get(const void *map, const uint8_t *key, size_t length, uint64_t *value) {             \
        return sellumaq_##kind##_get(map, key, length, value);                                                \
    }                                                                                                         \
    static bool kind##_del(void *map, const uint8_t *key, size_t length) {                                    \
        return sellumaq_##kind##_del(map, key, length);                                                       \
    }                                                                                                         \
    static uint64_t kind##_len(const void *map) { return sellumaq_##kind##_len(map); }                        \
    static void kind##_shrink(void *map) { sellumaq_##kind##_shrink(map); }                                   \
    static uint64_t kind##_free(void *map) { return sellumaq_##kind##_free(map); }                            \
    static const Kind kind = {#kind,        kind##_put,    kind##_get, kind##_del,                            \
                              kind##_len, kind##_shrink, kind##_free};

KIND(judysl)
KIND(judyhs)

/* The key of a number. */
typedef size_t Spell(unsigned n, uint8_t *key);

static size_t digits(unsigned n, uint8_t *key) {
    return (size_t)sprintf((char *)key, "%016llu", 0x9E3779B97F4A7C15ull * n >> 12);
}

/* Keys that are longer than what is copied to the stack. */
static size_t longs(unsigned n, uint8_t *key) {
    size_t length = digits(n, key);
    memset(key + length, 'l', 1108 - length);
    return 1108;
}

/* Keys of 64 lengths. */
static size_t lengths(unsigned n, uint8_t *key) {
    size_t length = 8 + sprintf((char *)key, "%08x", n * 2654435761u);
    memset(key + 8, 'k', 8);
    for (size_t more = n % 64; more > 0; more--) key[length++] = 'x';
    return length;
}

/* Pairs of keys that share a piece, and some that are longer than what is copied to the stack. */
static size_t pairs(unsigned n, uint8_t *key) {
    size_t length = (size_t)sprintf((char *)key, "/home/u/%08u.%c", n / 2, n % 2 ? 'c' : 'o');
    for (size_t more = n % 1000 == 0 ? 900 : n % 7; more > 0; more--) key[length++] = 'y';
    return length;
}

static bool stays(unsigned n, unsigned one_of) { return n % one_of == 1; }

static void fill(const Kind *kind, Spell *spell, void *map, unsigned one_of, bool all) {
    uint8_t key[LONGEST];
    for (unsigned n = 0; n < MOST; n++)
        if (all || stays(n, one_of)) {
            size_t length = spell(n, key);
            CHECK(kind->put(map, key, length, n) == SELLUMAQ_ADDED);
        }
}

static void check(const Kind *kind, Spell *spell, const void *map, unsigned one_of) {
    uint8_t key[LONGEST];
    uint64_t value, keys = 0;
    for (unsigned n = 0; n < MOST; n++) {
        size_t length = spell(n, key);
        bool there = kind->get(map, key, length, &value);
        CHECK(there == stays(n, one_of) && (!there || value == n));
        keys += there;
    }
    CHECK(kind->len(map) == keys);
}

/* One of so many keys stays. Whether the shrunk map has no more than 1.3 of the memory of a new one of these keys, but
 * for that room. */
static bool shrunk(const Kind *kind, Spell *spell, unsigned one_of) {
    void *map[1] = {NULL}, *fresh[1] = {NULL};
    uint8_t key[LONGEST];
    size_t before = held_bytes;
    long blocks = held;
    fill(kind, spell, map, one_of, true);
    for (unsigned n = 0; n < MOST; n++)
        if (!stays(n, one_of)) {
            size_t length = spell(n, key);
            CHECK(kind->del(map, key, length));
        }
    answered = 0;
    kind->shrink(map);
    answered = -1;
    check(kind, spell, map, one_of);
    size_t left = held_bytes - before;
    fill(kind, spell, fresh, one_of, false);
    size_t copy = held_bytes - before - left;
    /* It takes keys and loses them as before. */
    for (unsigned n = 0; n < MOST; n += 3) {
        size_t length = spell(n, key);
        CHECK(kind->put(map, key, length, n) == (stays(n, one_of) ? SELLUMAQ_PRESENT : SELLUMAQ_ADDED));
        if (!stays(n, one_of)) CHECK(kind->del(map, key, length));
    }
    check(kind, spell, map, one_of);
    kind->free(map);
    kind->free(fresh);
    CHECK(held == blocks);
    return left * 10 <= copy * 13 + 10 * ROOM * MOST;
}

/* One of 50 byte strings stays, and memory is there. Then the shrunk map has no more than 1.3 of the memory of a new
 * one of these keys. */
static void shrunk_to_new(Spell *spell) {
    sellumaq_judyhs map = {0}, fresh = {0};
    uint8_t key[LONGEST];
    fill(&judyhs, spell, &map, 50, true);
    for (unsigned n = 0; n < MOST; n++)
        if (!stays(n, 50)) {
            size_t length = spell(n, key);
            CHECK(sellumaq_judyhs_del(&map, key, length));
        }
    sellumaq_judyhs_shrink(&map);
    check(&judyhs, spell, &map, 50);
    fill(&judyhs, spell, &fresh, 50, false);
    CHECK(sellumaq_judyhs_bytes(&map) * 10 <= sellumaq_judyhs_bytes(&fresh) * 13);
    sellumaq_judyhs_free(&map);
    sellumaq_judyhs_free(&fresh);
}

/* The key of a number below a million that has so many bytes, from 9 to 32: keys of two lengths begin differently. */
static size_t key_of(unsigned n, size_t length, uint8_t *key) {
    sprintf((char *)key, "%016llx%016x", 0x9E3779B97F4A7C15ull * (length * 1000000 + n), n);
    return length;
}

/* Puts keys of so many bytes in until one is refused, and answers how many there were. */
static unsigned fill_up(const Kind *kind, void *map, size_t length) {
    uint8_t key[LONGEST];
    unsigned n = 0;
    while (kind->put(map, key, key_of(n, length, key), n) == SELLUMAQ_ADDED) n++;
    return n;
}

/* One key of each page stays, or a few: the records of a new map stand in the order in which they came. */
static bool is_left(unsigned n) { return n % 128 == 0 && (n < 64 * 128 || n % 1024 == 0); }

static void check_left(const Kind *kind, const void *map, size_t length, unsigned keys) {
    uint8_t key[LONGEST];
    uint64_t value;
    for (unsigned n = 0; n < keys; n++) {
        bool there = kind->get(map, key, key_of(n, length, key), &value);
        CHECK(there == is_left(n) && (!there || value == n));
    }
}

static void check_filled(const Kind *kind, const void *map, size_t length, unsigned keys) {
    uint8_t key[LONGEST];
    uint64_t value;
    for (unsigned n = 0; n < keys; n++) CHECK(kind->get(map, key, key_of(n, length, key), &value) && value == n);
    CHECK(!kind->get(map, key, key_of(keys, length, key), &value));
}

/* A map has all the memory that it may take, and keeps one key of each page. Then at least 95 % as many keys of another
 * length have room, whose records take no more words. */
static void filled_again(const Kind *kind, size_t length, size_t other) {
    void *map[1] = {NULL};
    uint8_t key[LONGEST];
    uint64_t left = 0;
    long blocks = held;
    most_bytes = held_bytes + CAP;
    unsigned first = fill_up(kind, map, length);
    for (unsigned n = 0; n < first; n++) {
        if (is_left(n)) left++;
        else CHECK(kind->del(map, key, key_of(n, length, key)));
    }
    unsigned then = fill_up(kind, map, other);
    CHECK(then * 100ull >= first * 95ull);
    CHECK(kind->len(map) == left + then);
    check_left(kind, map, length, first);
    check_filled(kind, map, other, then);
    most_bytes = (size_t)-1;
    CHECK(kind->put(map, key, key_of(then, other, key), then) == SELLUMAQ_ADDED);
    CHECK(kind->free(map) == left + then + 1);
    CHECK(held == blocks);
}

/* How long it takes to look up each of so many keys, several times. */
static clock_t looked_up(const Kind *kind, const void *map, size_t length, unsigned keys) {
    uint8_t key[LONGEST];
    uint64_t value;
    clock_t begin = clock();
    for (unsigned look = 0; look < LOOKS; look++)
        for (unsigned n = 0; n < keys; n++)
            CHECK(kind->get(map, key, key_of(n, length, key), &value) && value == n);
    return clock() - begin;
}

/* One key of another page goes before each insert that is refused. Those inserts shrink the map once at most: one that
 * did so each time would walk all keys, a thousand times. */
static void refused_between_deletes(const Kind *kind, size_t length, size_t other) {
    void *map[1] = {NULL};
    uint8_t key[LONGEST];
    long blocks = held;
    for (unsigned n = 0; n < MOST; n++)
        CHECK(kind->put(map, key, key_of(n, length, key), n) == SELLUMAQ_ADDED);
    clock_t most = looked_up(kind, map, length, MOST), begin = clock();
    for (unsigned n = 0; n < REFUSED; n++) {
        CHECK(kind->del(map, key, key_of(n * (MOST / REFUSED), length, key)));
        answered = 0;
        CHECK(kind->put(map, key, key_of(n, other, key), n) == SELLUMAQ_NO_MEMORY);
        answered = -1;
    }
    CHECK(clock() - begin < most);
    CHECK(kind->len(map) == MOST - REFUSED);
    CHECK(kind->free(map) == MOST - REFUSED);
    CHECK(held == blocks);
}

int main(void) {
    static Spell *const spells[] = {digits, lengths, pairs};
    static const Kind *const kinds[] = {&judysl, &judyhs};
    void *none = NULL;
    sellumaq_judysl_shrink((sellumaq_judysl *)&none);
    sellumaq_judyhs_shrink((sellumaq_judyhs *)&none);
    CHECK(!none);
    for (size_t kind = 0; kind < 2; kind++)
        for (size_t spell = 0; spell < 3; spell++)
            for (unsigned one_of = 3; one_of <= 60; one_of += 19) {
                bool is_small = shrunk(kinds[kind], spells[spell], one_of);
                /* Levels of strings that went keep their places in the list of levels. */
                CHECK(is_small || (kinds[kind] == &judysl && spells[spell] == pairs));
            }
    shrunk_to_new(digits);
    shrunk_to_new(longs);
    filled_again(&judyhs, 16, 15);
    filled_again(&judysl, 24, 16);
    refused_between_deletes(&judyhs, 16, 15);
    refused_between_deletes(&judysl, 24, 16);
    return 0;
}
