/* Counts of strings and the n-th of them, where levels below the first are wide, beside a table of the same strings. */
#include <string.h>
#include "../sellumaq.h"

#include "check.h"

enum { STRINGS = 1200, LONGEST = 64, KINDS = 5 };

static char strings[STRINGS][LONGEST];
static bool held[STRINGS];
static size_t before[STRINGS + 1];
static size_t order[STRINGS];

/* The string of a number: most share their first piece, and some the next with one other. */
static void make(char *text, int kind, unsigned n) {
    switch (kind) {
    case 0: sprintf(text, "https://%08ux", n); return;
    case 1: sprintf(text, n == 0 ? "https://%08uy" : "https://%08ux", n == 0 ? STRINGS / 2 : n); return;
    case 2: sprintf(text, "https://%08u%c", n / 2, n % 2 ? 'x' : 'y'); return;
    case 3: sprintf(text, "/home/u/%08u.%c", n / 2, n % 2 ? 'c' : 'o'); return;
    default: sprintf(text, "https://www.site-%05u.example/item-%u", n % (STRINGS / 10), n);
    }
}

static int compared(const void *one, const void *other) { return strcmp(one, other); }

static const uint8_t *bytes(size_t place) { return (const uint8_t *)strings[place]; }

static size_t length(size_t place) { return strlen(strings[place]); }

/* Each count from a place on, and the key at each place. */
static void compare(const sellumaq_judysl *map) {
    for (size_t at = 0; at < STRINGS; at++) before[at + 1] = before[at] + held[at];
    CHECK(sellumaq_judysl_len(map) == before[STRINGS]);
    for (size_t at = 0; at < STRINGS; at++) {
        size_t end = any() % STRINGS;
        uint64_t told = sellumaq_judysl_count(map, bytes(at), length(at), bytes(end), length(end));
        CHECK(told == (at <= end ? before[end + 1] - before[at] : 0));
        if (!held[at]) continue;
        uint8_t key[LONGEST];
        size_t found;
        uint64_t value;
        CHECK(sellumaq_judysl_by_count(map, before[at] + 1, key, sizeof key, &found, &value) == SELLUMAQ_FOUND);
        CHECK(found == length(at) && memcmp(key, bytes(at), found) == 0 && value == at);
    }
}

/* Puts the strings in or takes them out, from one of the order on up to another. */
static void change(sellumaq_judysl *map, size_t from, size_t to, bool in) {
    for (size_t i = from; i < to; i++) {
        size_t at = order[i];
        if (in) CHECK(sellumaq_judysl_put(map, bytes(at), length(at), at) == (held[at] ? SELLUMAQ_PRESENT : SELLUMAQ_ADDED));
        else CHECK(sellumaq_judysl_del(map, bytes(at), length(at)) == held[at]);
        held[at] = in;
    }
    compare(map);
}

static void shuffle(void) {
    for (size_t i = STRINGS; i > 1; i--) {
        size_t other = any() % i, kept = order[i - 1];
        order[i - 1] = order[other];
        order[other] = kept;
    }
}

static void try_kind(int kind) {
    sellumaq_judysl map = {0};
    for (unsigned n = 0; n < STRINGS; n++) {
        make(strings[n], kind, n);
        order[n] = n;
        held[n] = false;
    }
    qsort(strings, STRINGS, LONGEST, compared);
    for (int turn = 0; turn < 3; turn++) {
        if (turn > 0) shuffle();
        for (size_t from = 0; from < STRINGS; from += 200) change(&map, from, from + 200, true);
        change(&map, 100, STRINGS - 100, false);
        change(&map, 60, 600, true);
        change(&map, 20, STRINGS, false);
        change(&map, 0, 80, true);
        change(&map, 0, 80, false);
    }
    CHECK(sellumaq_judysl_free(&map) == 0);
}

int main(void) {
    for (int kind = 0; kind < KINDS; kind++) try_kind(kind);
}
